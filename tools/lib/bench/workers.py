"""Times solves of plans whose commands only compute, by several numbers of workers.

    tools/bench workers [PLAN,WORKERS,..]..      as in `tools/bench workers 'side 1000 1000,1,2,4,8'`; the rows of `PLANS` where none is named

A plan is a shape, how many commands it has, and for how many microseconds each of them computes. The program that
solves them stands in `workers.txt` beside this file, with the shapes: in a crate the gate would prove it each time,
and the toolchain lets no `.rt` file stand outside of crates. It is proved and built here, in a copy of the crates
beside the repository, which takes minutes; prove those that it stands on first (`tools/proof prove workers`,
`tools/proof prove samples`). Run it on as many processors as workers are to run at a time.
"""
import os
import shutil
import subprocess
import sys
import tempfile

from common import CRATES, LIB, TOP, below, crates

LIBRARIES = "plain trees runs executor cachemounts llb plans memo samples solver workers anyhow".split()
PLANS = ["side 1000 1000,1,2,4,8", "chain 1000 1000,1,64", "chain 1 2000000,1,64", "side 1000 0,1,4,64", "locked 1000 1000,1,4,64"]


def make_program(folder):
    """Proves and builds the program in a folder, over links to the crates below it, and gives its path."""
    found = {**crates(), "overlap": LIBRARIES}
    names = below(LIBRARIES, found, [])
    for name in names:
        shutil.copytree(f"{CRATES}/{name}", f"{folder}/crates/{name}", copy_function=os.link)
    with open(f"{folder}/crates.txt", "w", encoding="utf-8") as file:
        file.writelines(f"{name}: {' '.join(found[name])}\n" for name in [*names, "overlap"])
    shutil.copy(f"{TOP}/HANDLES", folder)
    crate = f"{folder}/crates/overlap"
    os.makedirs(f"{crate}/src")
    shutil.copy(f"{LIB}/bench/workers.txt", f"{crate}/src/main.rt")
    built = subprocess.run(["rt", "run"], cwd=crate, stdin=subprocess.DEVNULL, stdout=subprocess.PIPE, stderr=subprocess.STDOUT, text=True)
    if built.returncode != 0:
        sys.exit(built.stdout)
    return f"{crate}/out/overlap"


def main(words):
    plans = [plan.split(",") for plan in words or PLANS]
    print("| Plan, commands, microseconds each | Workers | Seconds by the clock | Of all processors | Times as fast as the first |")
    print("|---|---|---|---|---|", flush=True)
    with tempfile.TemporaryDirectory(prefix="overlap-", dir=os.path.dirname(TOP)) as folder:
        program = make_program(folder)
        for plan, *numbers in plans:
            first = None
            for workers in numbers:
                answer = subprocess.run([program], input=f"{plan} {workers}\n", capture_output=True, text=True, check=True).stdout
                clock, processors, runs = (int(word) for word in answer.split()[4:])
                if runs != int(plan.split()[1]):
                    sys.exit(f"{plan}: {runs} commands were run")
                first = first or clock
                print(f"| {plan} | {workers} | {clock / 1e6:.3f} | {processors / 1e6:.3f} | {first / clock:.2f} |", flush=True)
