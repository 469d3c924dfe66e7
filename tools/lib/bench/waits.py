"""Times a build of many commands on a large tree, and counts how often a thread waits.

    tools/bench waits PROGRAM..      as in `tools/bench waits before/dfsolve after/dfsolve`: each is a built program, and its path is its name in the table

An image has 20,000 files. A hundred stages begin with it, each with 38 commands that put a file, and the target
copies a file of each. A thread waits where it takes a lock that another one holds, or sleeps until a claim is to be
had; the system counts these waits. It is built by 1, 4 and 64 workers: the least time of five runs of each program,
which run in turn, and the waits of that run. The answers have to be equal.
"""
import json
import sys
import tempfile

from bundles import PLAIN
from runs import timed

FILES, FOLDERS, STAGES, COMMANDS, RUNS = 20_000, 200, 100, 38, 5


def folder(number):
    return f"/d{number % FOLDERS:03}"


def image():
    rows = [{"dir": True, "gid": 0, "mode": "0755", "path": path, "uid": 0} for path in ["/", *map(folder, range(FOLDERS))]]
    rows += [{"gid": 0, "hex": "61", "mode": "0644", "path": f"{folder(at)}/f{at:05}", "uid": 0} for at in range(FILES)]
    return {"config": PLAIN, "tree": sorted(rows, key=lambda row: row["path"].encode())}


def bundle():
    lines = []
    for stage in range(STAGES):
        lines.append(f"FROM base AS s{stage}")
        lines += [f"RUN put {folder(stage + at)}/new{at} {stage}" for at in range(COMMANDS)]
    lines += ["FROM scratch", *[f"COPY --from=s{stage} {folder(stage)}/new0 /out/{stage}" for stage in range(STAGES)]]
    return {"dockerfile": {"text": "\n".join(lines) + "\n"}, "images": {"base": image()}}


def run(program, workers, given):
    """What a build took, and the answer."""
    with tempfile.TemporaryFile() as answer:
        took = timed([program, "build", "--workers", str(workers)], given, answer)
        if took.status:
            sys.exit(f"{program} ended with {took.status}")
        answer.seek(0)
        return took, answer.read()


def main(programs):
    if not programs:
        sys.exit(__doc__)
    print("| Program | Workers | Seconds by the clock | Of all processors | Waits |\n|---|---|---|---|---|", flush=True)
    with tempfile.TemporaryFile("w+", encoding="utf-8") as given:
        json.dump(bundle(), given)
        given.flush()
        for workers in (1, 4, 64):
            runs = {program: [] for program in programs}
            for _ in range(RUNS):
                for program in programs:
                    runs[program].append(run(program, workers, given))
            if len({it[1] for each in runs.values() for it in each}) > 1:
                sys.exit("the answers differ")
            for program, each in runs.items():
                took, _ = min(each)
                print(f"| {program} | {workers} | {took.clock:.3f} | {took.processors:.3f} | {took.waits:,} |", flush=True)
