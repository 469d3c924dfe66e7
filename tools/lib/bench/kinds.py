"""Times the program on bundles of several kinds, each at two sizes.

    tools/bench kinds [--program P] [--workers N,..] [KIND..]      all kinds where none is named; `tools/bench kinds --kinds` lists them

Each kind is built with 1 and with 4 workers where no numbers are given; those that are drawn have no workers. P is
what `./run --proved` makes if it isn't given. A row has the size, the workers, the bundle's bytes, the answer's,
wall-clock and processor seconds, the most memory, and the exit status. Below the two sizes stands how much dearer the
larger one is for as much work, by the processor's seconds.
"""
import argparse
import json
import subprocess
import tempfile

from bundles import PLAIN, in_order
from common import PROVED
from runs import file_of, limits, timed

MOST_MEMORY = 12 << 30


def bundle(dockerfile, **more):
    return json.dumps({"dockerfile": {"text": dockerfile}, **more}, separators=(",", ":")).encode()


def file_at(path, text="x"):
    return {"path": path, "text": text}


def stages(count):
    """Stages that each copy from the one before."""
    lines = ["FROM scratch AS s0", "RUN put /f 0"]
    for k in range(1, count):
        lines += [f"FROM scratch AS s{k}", f"COPY --from=s{k - 1} /f /f{k}", f"RUN put /f {k}"]
    return bundle("\n".join(lines))


def environments(count):
    """RUNs under 200 variables, of which one changes between them."""
    lines = ["FROM scratch", "ENV " + " ".join(f"v{k}={'x' * 8}" for k in range(200))]
    for k in range(count):
        lines += [f"ENV v0={k}", "RUN true"]
    return bundle("\n".join(lines[:4096]))


def variables(count):
    """Lines of ENV, each with a name of its own."""
    return bundle("\n".join(["FROM scratch"] + [f"ENV v{k}=$v{k - 1}x" if k % 16 else f"ENV v{k}=x" for k in range(count)]))


def chain(count):
    """Runs that each add a file to the tree."""
    return bundle("\n".join(["FROM scratch"] + [f"RUN put /d{k % 64}/f{k} x" for k in range(count)]))


def links(count):
    """Linked copies of one file."""
    lines = ["FROM scratch"] + [f"COPY --link f /d{k % 64}/f{k}" for k in range(count)]
    return bundle("\n".join(lines), context=[file_at("/f", "x" * 1000)])


def large_links(count):
    """Linked copies of one file of 13 kB."""
    lines = ["FROM scratch"] + [f"COPY --link f /d{k % 64}/f{k}" for k in range(count)]
    return bundle("\n".join(lines), context=[file_at("/f", "x" * 13000)])


def stages_of_files(count):
    """100 stages that each copy all files of the one before, so many in all, and add one."""
    tree = [file_at(f"/d{k % 500}/f{k}") for k in range(count)]
    lines = ["FROM base AS s0"]
    for k in range(1, 100):
        lines += [f"FROM scratch AS s{k}", f"COPY --from=s{k - 1} / /", f"RUN put /g{k} x"]
    return bundle("\n".join(lines), images={"base": {"config": PLAIN, "tree": tree}})


def on_image(tree):
    """One stage of 4,000 instructions on an image."""
    lines = ["FROM base"] + [f"RUN put /n{k % 64}/new{k} x" for k in range(4000)]
    return bundle("\n".join(lines), images={"base": {"config": PLAIN, "tree": tree}})


def many_files(count):
    """So many files in 7,000 folders, in no order."""
    return [file_at(f"/d{k % 1000}/e{k % 7}/f{k}") for k in range(count)]


def huge_image(count):
    """One stage of 4,000 instructions on an image of so many files, which are listed in no order."""
    return on_image(many_files(count))


def walked_image(count):
    """The same, listed as a walk through the folders tells them."""
    return on_image(in_order(many_files(count)))


def values(count):
    """So many lines of ENV that set one variable anew to a value of 0.9 MiB, in 1 MiB of Dockerfile."""
    lines = ["FROM scratch", "ARG v=" + "x" * 943718] + ["ENV w=$v"] * count
    return bundle("\n".join(lines))


def large_image(count):
    """One stage of 400 instructions on an image of so many files."""
    tree = [file_at(f"/d{k % 1000}/e{k % 7}/f{k}") for k in range(count)]
    lines = ["FROM base"] + [f"RUN put /new{k} x" for k in range(400)]
    return bundle("\n".join(lines), images={"base": {"config": PLAIN, "tree": tree}})


def binds(count):
    """50 runs with a bind of an image of so many files."""
    tree = [file_at(f"/d{k % 1000}/f{k}") for k in range(count)]
    lines = ["FROM scratch"] + [f"RUN --mount=from=base,target=/m cat /m/d0/f0 /o{k}" for k in range(50)]
    return bundle("\n".join(lines), images={"base": {"config": PLAIN, "tree": tree}})


def caches(count):
    """Runs that use so many caches in turn."""
    lines = ["FROM scratch"] + [f"RUN --mount=type=cache,id=c{k},target=/c bump /c/n" for k in range(count)]
    return bundle("\n".join(lines))


def under_lines(files):
    """A context of files under 400 ignore lines."""
    lines = [f"gone{k}" for k in range(200)] + [f"x{k}*" for k in range(100)] + ["**/*.o"]
    lines += [f"**/y{k}" for k in range(79)] + [f"!d{k}/keep.o" for k in range(20)]
    return bundle("FROM scratch\nCOPY . /", context=[file_at("/.dockerignore", "\n".join(lines))] + files)


def sources_and_objects(count):
    """So many files in 3,400 folders, in no order, every second of which is ignored."""
    names = [f"/d{k % 200}/e{k % 17}/f{k}.{'o' if k % 2 else 'c'}" for k in range(count)]
    return [file_at(name, "x" * 32) for name in names]


def ignored(count):
    """A context of so many files under 400 ignore lines, of which about half are kept, listed in no order."""
    return under_lines(sources_and_objects(count))


def walked(count):
    """The same, listed as a walk through the folders tells them."""
    return under_lines(in_order(sources_and_objects(count)))


def deeper(count):
    """A context of so many files in 3,400 folders, copied whole to a deeper folder."""
    files = in_order([file_at(f"/d{k % 200}/e{k % 17}/f{k}") for k in range(count)])
    return bundle("FROM scratch\nCOPY . /app/deep", context=files)


def sources(count):
    """One COPY of so many sources."""
    names = [f"f{k}" for k in range(count)]
    return bundle("FROM scratch\nCOPY " + " ".join(names) + " /d/", context=[file_at("/" + name) for name in names])


def small_files(count):
    """A context of so many files of 1 KiB, of which none is copied."""
    return bundle("FROM scratch\nRUN true", context=[file_at(f"/d{k % 100}/f{k}", "x" * 1024) for k in range(count)])


def one_file(size):
    """A context of one file of so many bytes, of which none is copied."""
    return bundle("FROM scratch\nRUN true", context=[file_at("/f", "x" * size)])


def images(count):
    """So many images, one stage each, of which the last copies from all."""
    tree = [file_at("/f")]
    lines = ["FROM scratch"] + [f"COPY --from=i{k} /f /f{k}" for k in range(count)]
    return bundle("\n".join(lines), images={f"i{k}": {"config": PLAIN, "tree": tree} for k in range(count)})


def drawn(count):
    """The graph of so many linked copies and runs, each copy from an image of its own and each run with binds of three: seven operations each."""
    lines = ["FROM scratch"]
    for k in range(count):
        binds = " ".join(f"--mount=from=i{4 * k + b},target=/m{b}" for b in range(3))
        lines += [f"COPY --link --from=i{4 * k + 3} /f /f{k}", f"RUN {binds} put /g {k}"]
    return bundle("\n".join(lines), images={f"i{k}": {"config": PLAIN, "tree": []} for k in range(4 * count)})


def vertices(count):
    """So many vertices: links from images of their own onto one file, and runs with binds of 16 other images."""
    links, runs = count * 24 // 100, count // 64
    lines = ["FROM scratch"] + [f"COPY --link --from=i{k} /f /f" for k in range(links)]
    for k in range(runs):
        binds = " ".join(f"--mount=from=i{links + 16 * k + b},target=/m{b}" for b in range(16))
        lines.append(f"RUN {binds} put /g {k}")
    tree = [file_at("/f")]
    return bundle("\n".join(lines), images={f"i{k}": {"config": PLAIN, "tree": tree} for k in range(links + 16 * runs)})


def one_environment(count):
    """RUNs behind one line of 200 variables."""
    lines = ["FROM scratch", "ENV " + " ".join(f"v{k}={'x' * 8}" for k in range(200))]
    return bundle("\n".join(lines + [f"RUN put /a {k}" for k in range(count)]))


def row(count):
    """Runs one after another, each of which leaves one file."""
    return bundle("\n".join(["FROM scratch"] + [f"RUN put /a {k}" for k in range(count)]))


def wide_copies(count):
    """So many COPYs of one file each from an image of 20,000 files."""
    tree = [file_at(f"/d{k % 1000}/f{k}") for k in range(20000)]
    lines = ["FROM scratch"] + [f"COPY --link --from=base /d{k}/f{k} /f" for k in range(count)]
    return bundle("\n".join(lines), images={"base": {"config": PLAIN, "tree": tree}})


KINDS = {
    "stages": (stages, 64, 256),
    "environments": (environments, 500, 2000),
    "variables": (variables, 1000, 4000),
    "chain": (chain, 1000, 4000),
    "links": (links, 1000, 4000),
    "large_image": (large_image, 20000, 80000),
    "large_links": (large_links, 1000, 4000),
    "stages_of_files": (stages_of_files, 12500, 50000),
    "huge_image": (huge_image, 95000, 380000),
    "walked_image": (walked_image, 95000, 380000),
    "values": (values, 175, 700),
    "binds": (binds, 25000, 100000),
    "caches": (caches, 1000, 2000),
    "ignored": (ignored, 50000, 200000),
    "walked": (walked, 50000, 200000),
    "deeper": (deeper, 50000, 200000),
    "sources": (sources, 5000, 20000),
    "small_files": (small_files, 15000, 55000),
    "one_file": (one_file, 8 << 20, 30 << 20),
    "images": (images, 1000, 4000),
    "vertices": (vertices, 4000, 16000),
    "one_environment": (one_environment, 1000, 4000),
    "row": (row, 1000, 4000),
    "wide_copies": (wide_copies, 100, 400),
    "drawn": (drawn, 571, 2000),
}


def time_kind(program, name, workers):
    """Prints the rows of a kind, built by so many workers, or drawn where there is no number."""
    make, *sizes = KINDS[name]
    words = ["build", "--workers", workers] if workers else ["graph"]
    seconds = []
    for size in sizes:
        with file_of(make, size) as given, tempfile.TemporaryFile() as answer:
            took = timed([program, *words], given, answer, stderr=subprocess.DEVNULL, preexec_fn=limits(MOST_MEMORY))
            ends = f"{given.seek(0, 2)} | {answer.seek(0, 2)}"
        seconds.append(took.processors)
        row = f"{took.clock:.3f} | {took.processors:.3f} | {took.memory:.0f} | {took.status}"
        print(f"| {name} | {size} | {workers or 'graph'} | {ends} | {row} |", flush=True)
    print(f"| | | | | | | {seconds[1] / max(seconds[0], 0.001):.1f} for {sizes[1] / sizes[0]:.1f} | | |", flush=True)


def print_table(program, workers, kinds):
    print("| Kind | Size | Workers | Bundle, bytes | Answer, bytes | Seconds | Processor | MiB | Status |")
    print("|---|---|---|---|---|---|---|---|---|")
    for name in kinds:
        for number in [""] if KINDS[name][0] is drawn else workers:
            time_kind(program, name, number)


def main(words):
    parser = argparse.ArgumentParser(prog="tools/bench kinds")
    parser.add_argument("names", nargs="*", choices=[[], *KINDS], metavar="KIND")
    parser.add_argument("--kinds", action="store_true")
    parser.add_argument("--program", default=PROVED)
    parser.add_argument("--workers", default="1,4")
    options = parser.parse_args(words)
    if options.kinds:
        print("\n".join(f"{name:15} {make.__doc__}" for name, (make, _, _) in KINDS.items()))
        return
    print_table(options.program, options.workers.split(","), options.names or KINDS)
