"""Measures small files that cost much, of each kind at two sizes, and how that grows.

    tools/bench costs [--program P] [--largest] [--seconds N] [--memory M] [KIND..]      all kinds where none is named

With --largest each kind is tried at a size near the limits too. A run has ten times so many processor seconds (20)
and M MiB (4,096). P is what `./run --proved` makes if it isn't given. `tools/hostile/run` tries inputs that nobody
means, and judges the answers.
"""
import argparse
import itertools
import subprocess
import sys
import tempfile
import time

from bundles import PLAIN, Spelled, bundle_of, lines_of, nested
from common import PROVED
from runs import file_of, limits, timed

# the hasher of the toolchain's tables, in which names stood once: its first state, and what it multiplies by
STATE = 0x243F6A8885A308D3
MULTIPLIER = 0x9E3779B97F4A7C15
LETTERS = "abcdefghijklmnopqrstuvwxyzABCDEFGHIJKLMNOPQRSTUVWXYZ_0123456789"


def folded_multiply(first, second):
    product = first * second
    return product & 0xFFFFFFFFFFFFFFFF ^ product >> 64


def names_that_meet(count):
    """Names of 32 bytes with one hash: where the third eight bytes are the hasher's state, a factor is 0 whatever the last eight are."""
    for tail in itertools.product(LETTERS, repeat=4):
        front = "name_whose_t" + "".join(tail)
        first, second = (int.from_bytes(front[at : at + 8].encode(), "little") for at in (0, 8))
        state = folded_multiply(first ^ (STATE + 32), second ^ MULTIPLIER).to_bytes(8, "little")
        if all(chr(byte) in LETTERS for byte in state):
            return [f"{front}{state.decode()}{k:08}" for k in range(count)]
    raise ValueError("no front")


def image(config=None, tree=()):
    return {"config": {**PLAIN, **({"config": config} if config else {})}, "tree": list(tree)}


def files(names, text=""):
    return [{"path": "/" + name, "text": text} for name in names]


def env_names(count):
    """Variables on one line whose names have one hash of the toolchain's tables, in which they stood once."""
    return bundle_of(lines_of("ENV " + " ".join(name + "=" for name in names_that_meet(count))))


def other_env_names(count):
    """Variables on one line with names of that length that don't meet."""
    return bundle_of(lines_of("ENV " + " ".join(f"a{k:031}=" for k in range(count))))


def label_names(count):
    """Keys on one line of LABEL that meet."""
    return bundle_of(lines_of("LABEL " + " ".join(name + "=" for name in names_that_meet(count))))


def image_labels(count):
    """An image's Labels that meet."""
    return bundle_of("FROM a", images={"a": image({"Labels": dict.fromkeys(names_that_meet(count), "")})})


def image_env(count):
    """An image's Env that meets."""
    return bundle_of("FROM a", images={"a": image({"Env": [name + "=" for name in names_that_meet(count)]})})


def image_volumes(count):
    """An image's Volumes that meet."""
    return bundle_of("FROM a", images={"a": image({"Volumes": {name: {} for name in names_that_meet(count)}})})


def stages_on_labels(stages, labels):
    """Stages from one image, of each of which the target copies a file, so each has the image's configuration."""
    lines = [line for k in range(stages) for line in (f"FROM a AS s{k}", f"LABEL own={k}")]
    lines += ["FROM scratch", *(f"COPY --from=s{k} /f /f{k}" for k in range(stages))]
    return bundle_of("\n".join(lines), images={"a": image({"Labels": {f"label{k}": "" for k in range(labels)}}, files(["f"]))})


def labels_of_stages(count):
    """30 stages from an image with so many labels, of which the answer has none."""
    return stages_on_labels(30, count)


def stages_of_labels(count):
    """So many stages from an image of 10,000 labels, of which the answer has none."""
    return stages_on_labels(count, 10000)


MEBIBYTE = ["ARG a=" + "x" * 1024, "ARG b=" + "$a" * 1023]


def values_answered(count):
    """Values of 1 MiB, each of them in the answer."""
    return bundle_of(lines_of(*MEBIBYTE, *(f"ENV c{k}={k}$b" for k in range(count))))


def values_kept(count):
    """So many values of 1 MiB in a stage of which the target copies one file."""
    text = lines_of(*MEBIBYTE, *(f"ENV c{k}={k}$b" for k in range(count)), "RUN put /f x")
    return bundle_of(text.replace("scratch", "scratch AS a", 1) + "\nFROM scratch\nCOPY --from=a /f /f")


def values_replaced(count):
    """One variable that is set anew to a value of 1 MiB."""
    return bundle_of(lines_of(*MEBIBYTE, *(f"ENV c={k}$b" for k in range(count)), "ENV c="))


def values_drawn(count):
    """RUNs under one value of 1 MiB, drawn."""
    return bundle_of(lines_of(*MEBIBYTE, "ENV c=$b", *(f"RUN put /a {k}" for k in range(count))))


def stars(count):
    """A pattern of so many stars against 500 names of 255 bytes, none of which it matches."""
    names = ["a" * 251 + f"{k:04}" for k in range(500)]
    return bundle_of(lines_of("COPY " + "*a" * count + "*b /d/"), context=files(names))


def patterns_and_names(count):
    """So many patterns and so many names in one folder, each pattern for one of them."""
    return bundle_of(lines_of("COPY " + " ".join(f"f{k:05}*" for k in range(count)) + " /d/"), context=files(f"f{k:05}" for k in range(count)))


def stars_and_names(count):
    """So many patterns that begin with `*` in a folder of 100,000 names, each pattern for one of them."""
    return bundle_of(lines_of("COPY " + " ".join(f"*{k:05}" for k in range(count)) + " /d/"), context=files(f"f{k:05}" for k in range(100000)))


def files_onto_files(count):
    """A folder of 60,000 files, copied so many times onto one folder, which the second time fails."""
    return bundle_of(lines_of("COPY" + " a/" * count + " /d/"), context=files(f"a/f{k}" for k in range(60000)))


def folders_onto_folders(count):
    """A folder of 100,000 folders, copied so many times onto one folder."""
    context = [{"path": f"/a/f{k}", "dir": True} for k in range(100000)]
    return bundle_of(lines_of("COPY" + " a" * count + " /d/"), context=context)


def ignore_lines(count):
    """So many ignore lines of 30 `**` against 50 paths of 64 components."""
    lines = "\n".join("**/a/" * 30 + f"b{k}" for k in range(count))
    context = [*files([".dockerignore"], lines), *files("a/" * 63 + f"f{k}" for k in range(50))]
    return bundle_of(lines_of("COPY . /"), context=context)


def ignore_stars(count):
    """50 ignore lines of so many `**` against 50 such paths."""
    lines = "\n".join("**/a/" * count + f"b{k}" for k in range(50))
    context = [*files([".dockerignore"], lines), *files("a/" * 63 + f"f{k}" for k in range(50))]
    return bundle_of(lines_of("COPY . /"), context=context)


def images(count):
    """Images, sixteen in a RUN's binds."""
    lines = ["RUN " + " ".join(f"--mount=from=i{16 * k + b},target=/m{b}" for b in range(16)) + f" put /g {k}" for k in range(count // 16)]
    return bundle_of(lines_of(*lines), images={f"i{k}": image() for k in range(count)})


def nests(count):
    """Lists of 120 in one another, so many, under a key that is dropped."""
    return bundle_of("FROM scratch", images={"a": {"config": {**PLAIN, "x": [nested(120)] * count}, "tree": []}})


def nest_too_deep(count):
    """So many `[` and nothing else."""
    return ("[" * count).encode()


def environments(count):
    """Lines of ENV and RUN in turn, so a RUN's environment is all that stands above it."""
    return bundle_of(lines_of(*(line for k in range(count) for line in (f"ENV v{k}=", "RUN true"))))


def one_environment(count):
    """So many names on one line of ENV, and a hundredth as many RUNs after it."""
    return bundle_of(lines_of("ENV " + " ".join(f"a{k}=" for k in range(count)), *["RUN true"] * (count // 100)))


def changed_environments(count):
    """So many names on one line of ENV, and then lines of ENV and RUN in turn, a hundredth as many of each."""
    return bundle_of(lines_of("ENV " + " ".join(f"a{k}=" for k in range(count)), *(line for k in range(count // 100) for line in (f"ENV v={k}", "RUN true"))))


def pairs_after_names(count):
    """2,040 pairs of ENV and RUN after so many names."""
    return bundle_of(lines_of("ENV " + " ".join(f"a{k}=" for k in range(count)), *(line for k in range(2040) for line in (f"ENV v={k}", "RUN true"))))


def words_of_shells(count):
    """A SHELL of so many words, and a hundredth as many RUNs after it."""
    return bundle_of(lines_of("SHELL [" + ",".join(['"a"'] * count) + "]", *["RUN true"] * (count // 100)))


def long_word_of_shell(count):
    """A SHELL of one word of so many bytes, and 1,000 RUNs after it."""
    return bundle_of(lines_of(f'SHELL ["{"a" * count}"]', *["RUN true"] * 1000))


def long_names(count):
    """So many names of 1,000 bytes on one line of ENV, and then 1,000 lines of ENV and RUN in turn."""
    return bundle_of(lines_of("ENV " + " ".join(f"a{k:0999}=" for k in range(count)), *(line for k in range(1000) for line in (f"ENV v={k}", "RUN true"))))


def values_of_an_environment(count):
    """So many ARGs on one line that are one text of 1 MiB, and a RUN."""
    return bundle_of(lines_of(*MEBIBYTE, "ARG " + " ".join(f"c{k}=$b" for k in range(count)), "RUN put /f x"))


def environments_of_stages(count):
    """250 stages from an image of so many variables, each with a RUN, of which the target copies a file."""
    lines = [line for k in range(250) for line in (f"FROM a AS s{k}", "RUN put /f x")]
    lines += ["FROM scratch", *(f"COPY --from=s{k} /f /f{k}" for k in range(250))]
    return bundle_of("\n".join(lines), images={"a": image({"Env": [f"a{k}=" for k in range(count)]})})


def doubling(count):
    """Lines of so many stages that each copy the one before twice, so the last has two to that number of files."""
    lines = ["FROM scratch AS s0", "RUN put /f x"]
    for k in range(1, count + 1):
        lines += [f"FROM scratch AS s{k}", f"COPY --from=s{k - 1} / /a/", f"COPY --from=s{k - 1} / /b/"]
    return [*lines, "FROM scratch"]


def doubled_trees(count):
    """So many stages that each copy the one before twice, so the last has two to that number of files; the target has one."""
    return bundle_of("\n".join([*doubling(count), f"COPY --from=s{count} {'/a' * count}/f /f"]))


def doubled_trees_laid(count):
    """Such stages, of which the last is linked twice to one place."""
    return bundle_of("\n".join([*doubling(count), f"COPY --link --from=s{count} /a/ /x/", f"COPY --link --from=s{count} /b/ /x/"]))


def doubled_trees_placed(count):
    """Such stages, of which the last is copied to where a file lies."""
    return bundle_of("\n".join([*doubling(count), "RUN put /x/f y", f"COPY --from=s{count} / /x/"]))


def doubled_trees_found(count):
    """Such stages, and a pattern that leads to all files of the last."""
    return bundle_of("\n".join([*doubling(count), f"COPY --from=s{count} {'/*' * count}/f* /x/"]))


def words_in_words(count):
    """So many words of 32 `${` in one another."""
    return bundle_of(lines_of(*(f"ENV v{k % 8}=" + "${a:-" * 32 + "x" + "}" * 32 for k in range(count))))


def continued(count):
    """One instruction over so many lines, with a comment between each two."""
    return bundle_of(lines_of("RUN put /a \\\n" + "#\nx \\\n" * count + "y"))


def heredocs(count):
    """One COPY of so many heredocs."""
    return bundle_of(lines_of("COPY " + " ".join(f"<<e{k}" for k in range(count)) + " /d/", *(f"x\ne{k}" for k in range(count))))


def deep_paths(count):
    """A context of so many files, each 64 components deep in folders of its own."""
    return bundle_of(lines_of("COPY . /"), context=files(f"a{k}/" + "p/" * 62 + "f" for k in range(count)))


def bumps(count):
    """A script that makes a file longer by a byte so many times."""
    return bundle_of(lines_of("RUN <<E", *["bump /a"] * count, "E"))


def cats(count):
    """Copies of a file of 4 MiB by commands, in a stage of which the target copies nothing of them."""
    lines = ["FROM i AS a", *(f"RUN cat /f /f{k}" for k in range(count)), "RUN put /g x", "FROM scratch", "COPY --from=a /g /g"]
    return bundle_of("\n".join(lines), images={"i": image(tree=files(["f"], "x" * (4 << 20)))})


def numbers(count):
    """A key that is dropped, with so many numbers."""
    return bundle_of("FROM scratch", images={"a": {"config": {**PLAIN, "x": Spelled("[" + "1," * count + "1]")}, "tree": []}})


KINDS = {
    env_names: (500, 2000), other_env_names: (5000, 20000), label_names: (500, 2000), image_labels: (500, 2000), image_env: (500, 2000), image_volumes: (500, 2000),
    labels_of_stages: (2500, 10000), stages_of_labels: (8, 32),
    values_kept: (16, 64), values_answered: (8, 32), values_replaced: (50, 200), values_drawn: (4, 16),
    stars: (30, 120), patterns_and_names: (500, 2000), ignore_lines: (100, 400), ignore_stars: (8, 32),
    images: (2000, 8000), nests: (1500, 6000), nest_too_deep: (1 << 20, 4 << 20), numbers: (60000, 240000), environments: (200, 800),
    one_environment: (10000, 40000), changed_environments: (10000, 40000), words_of_shells: (10000, 40000),
    long_word_of_shell: (50000, 200000), long_names: (100, 400), values_of_an_environment: (50, 200), environments_of_stages: (10000, 40000),
    doubled_trees: (20, 60), deep_paths: (250, 1000), words_in_words: (500, 2000), continued: (20000, 80000), heredocs: (1500, 6000),
    bumps: (10000, 40000), cats: (8, 32), doubled_trees_laid: (12, 15), doubled_trees_placed: (12, 15), doubled_trees_found: (12, 15),
    pairs_after_names: (4200, 9000), stars_and_names: (175, 700), files_onto_files: (150, 600), folders_onto_folders: (21, 85),
}
DRAWN = {values_drawn, environments}
# sizes near the limits: a Dockerfile of 1 MiB, 4,096 lines, 256 stages, 8,000 images, a bundle of 64 MiB. Of values of 1 MiB there are fewer than the limits take
LARGEST = {
    env_names: 30000, other_env_names: 30000, label_names: 30000, image_labels: 1700000, image_env: 1800000, image_volumes: 1600000,
    labels_of_stages: 3750000, stages_of_labels: 255,
    values_kept: 1000, values_answered: 1000, values_replaced: 4000, values_drawn: 1000,
    stars: 500000, patterns_and_names: 20000, ignore_lines: 70000, ignore_stars: 130000,
    images: 8000, nests: 270000, nest_too_deep: 64 << 20, numbers: 33000000, environments: 2000,
    one_environment: 130000, changed_environments: 130000, words_of_shells: 200000,
    long_word_of_shell: 1000000, long_names: 1000, values_of_an_environment: 100000, environments_of_stages: 100000,
    doubled_trees: 60, deep_paths: 430000, words_in_words: 4000, continued: 110000, heredocs: 50000,
    bumps: 116000, cats: 4000, doubled_trees_laid: 60, doubled_trees_placed: 60, doubled_trees_found: 60,
    pairs_after_names: 130000, stars_and_names: 100000, files_onto_files: 300000, folders_onto_folders: 300000,
}


def print_kind(options, make, sizes, words):
    """The rows of a kind; from the second on they say how many times as much it has and takes."""
    before = None
    name = make.__name__ + (", drawn" if words == ["graph"] else "")
    limit = limits(options.memory << 20, options.seconds * 10)
    for size in sizes:
        with file_of(make, size) as given, tempfile.TemporaryFile() as answer:
            took = timed([options.program, *words], given, answer, stderr=subprocess.DEVNULL, preexec_fn=limit)
            now = [given.seek(0, 2), answer.seek(0, 2), max(took.processors, 0.001), took.memory]
        grown = " | ".join(f"{its / max(was, 0.001):.1f}" for its, was in zip(now, before)) if before else "| | |"
        print(f"| `{name}` | {size} | {now[0]} | {now[1]} | {took.processors:.2f} | {took.memory:.0f} | {took.status} | {grown} |", flush=True)
        before = now


def main(words):
    parser = argparse.ArgumentParser(prog="tools/bench costs")
    parser.add_argument("kinds", nargs="*", choices=[[], *(make.__name__ for make in KINDS)], metavar="KIND")
    parser.add_argument("--largest", action="store_true")
    parser.add_argument("--program", default=PROVED)
    parser.add_argument("--seconds", type=int, default=20)
    parser.add_argument("--memory", type=int, default=4096)
    options = parser.parse_args(words)
    kinds = {make: sizes for make, sizes in KINDS.items() if not options.kinds or make.__name__ in options.kinds}
    print("| Kind | Size | Bytes in | Answer, bytes | Processor s | MiB | Status | Times the bytes | the answer | the seconds | the MiB |")
    print("|---|---|---|---|---|---|---|---|---|---|---|")
    for make, sizes in kinds.items():
        sizes = (*sizes, LARGEST[make]) if options.largest and LARGEST[make] not in sizes else sizes
        if make is not values_drawn:
            print_kind(options, make, sizes, ["build", "--workers", "1"])
        if make in DRAWN:
            print_kind(options, make, sizes, ["graph"])
    print("\n" + "\n".join(f"- `{make.__name__}`: {make.__doc__}" for make in kinds))
    print(time.strftime("\nmade on %Y-%m-%d at %H:%M"), file=sys.stderr)
