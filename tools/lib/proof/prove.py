"""Proves a crate and the crates below it, side by side.

    tools/proof prove [CRATE]      CRATE is dfsolve where it is left out

A crate is proved as soon as those below it are; of several it takes the one first from which the longest chain leads
up. As many are proved at a time as there are processors and memory for them. What is kept in out/ isn't proved again.
Where CRATE is a program, it is built too, tried on its example and left in out/. It says how far it is, and prints
what was said of each crate that isn't proved. It goes on with those that don't stand on one, and ends with 1.

Several `rt lib` would go one after the other, since each locks all crates below its own. `rt all check --jobs N` lets
lanes wait for lower crates, and takes a fifth longer. So this goes by the toolchain's module `rtlib`, and holds its
locks to the end; if that module isn't as it is known here, `rt all check` proves.
"""
import os
import shutil
import signal
import subprocess
import sys
import tempfile
import threading
import time
from concurrent.futures import FIRST_COMPLETED, ThreadPoolExecutor, wait

from common import CRATES, TOP, rtlib

MEMORY_OF_A_CHECK = 3 << 30
SECONDS_OF_AN_EXAMPLE = 120
ONE_JOB = ["--jobs", "1"]


def lanes():
    memory = os.sysconf("SC_PHYS_PAGES") * os.sysconf("SC_PAGE_SIZE")
    return max(1, min(len(os.sched_getaffinity(0)), memory // MEMORY_OF_A_CHECK))


def add_up_once(crate_type):
    """Lets each crate's sum be made once for a question, and not once for each way that leads down to it: from dfsolve 6,000 lead down."""
    whole, known = crate_type.stamp, threading.local()

    def stamp(crate):
        if not hasattr(known, "sums"):
            known.sums = {}
            try:
                return stamp(crate)
            finally:
                del known.sums
        if crate not in known.sums:
            known.sums[crate] = whole(crate)
        return known.sums[crate]

    crate_type.stamp = stamp


def lines(crate):
    """The lines of a crate's code and proofs, which tell best how long it takes."""
    found = 0
    for folder, folders, names in os.walk(crate.folder):
        folders[:] = [name for name in folders if name != "out"]
        for name in names:
            if name.endswith((".rt", ".antt")):
                with open(os.path.join(folder, name), "rb") as it:
                    found += it.read().count(b"\n")
    return found


def chains(crates):
    """The lines of the longest chain from each crate up. The crates come with the lowest first."""
    found = {}
    for crate in reversed(crates):
        found[crate] = lines(crate) + max((found[it] for it in crates if crate in it.deps), default=0)
    return found


def words_of_example(folder):
    """The words that a program takes for its example, one on each line."""
    file = os.path.join(folder, "args")
    if not os.path.isfile(file):
        return []
    with open(file, encoding="utf-8") as it:
        return it.read().splitlines()


def prove(crate, is_top):
    """The status of a crate's proof, and what was said."""
    os.makedirs(os.path.join(crate.folder, "out"), exist_ok=True)
    with tempfile.TemporaryFile("w+", errors="replace") as crate.out:
        if not is_top:
            status = crate.build_rlib(ONE_JOB, anew=False)
        elif crate.is_program:
            how = {"input": crate.stream("stdin") or b"", "stdout": subprocess.PIPE, "stderr": crate.out, "timeout": SECONDS_OF_AN_EXAMPLE}
            status = crate.run(ONE_JOB, words_of_example(crate.folder), **how)
        else:
            status = crate.check(ONE_JOB)
        crate.out.seek(0)
        return status, crate.out.read()


def prove_in_lanes(crates):
    """Proves the crates, of which the lowest come first, but for those that stand on one that isn't proved. Gives how many are left."""
    began, length = time.time(), chains(crates)
    left, running, done = sorted(crates, key=lambda it: -length[it]), {}, set()
    with ThreadPoolExecutor(lanes()) as pool:
        while True:
            ready = [it for it in left if done.issuperset(it.deps)]
            for crate in ready[: lanes() - len(running)]:
                left.remove(crate)
                running[pool.submit(prove, crate, crate is crates[-1])] = crate
            if not running:
                return len(crates) - len(done)
            for ended in wait(running, return_when=FIRST_COMPLETED).done:
                crate = running.pop(ended)
                status, said = ended.result()
                minutes = (time.time() - began) / 60
                if status:
                    print(f"{said}tools/proof prove: {crate.name} is not proved ({minutes:.0f} minutes)", file=sys.stderr, flush=True)
                    continue
                done.add(crate)
                print(f"proved: {crate.name} ({len(done)} of {len(crates)} crates, {minutes:.0f} minutes)", file=sys.stderr, flush=True)


def prove_by_module(folder):
    module = rtlib()
    add_up_once(module.Crate)
    # (with Python's own handler an interrupt would wait for the checks)
    signal.signal(signal.SIGINT, signal.SIG_DFL)
    # what ends the checks with this process has to start before any thread
    module.guarded()
    top = module.Crate(folder, TOP, {})
    crates = [*top.below(), top]
    locks = module.lock(crates)
    try:
        for crate in crates:
            module.stop_on_links(crate.folder)
            module.stop_on_text(crate, "check")
        if prove_in_lanes(crates):
            sys.exit(1)
    finally:
        for it in locks:
            os.close(it)


def prove_by_commands(folder):
    """The same by the toolchain's commands alone."""
    commands = [["rt", "all", "check", "--jobs", str(lanes())]]
    example = subprocess.DEVNULL
    if os.path.isfile(os.path.join(folder, "src/main.rt")):
        commands.append(["rt", "run", "--", *words_of_example(folder)])
        example = open(os.path.join(folder, "stdin"), "rb")
    for words in commands:
        if subprocess.run(words, cwd=folder, stdin=example, stdout=sys.stderr, check=False).returncode:
            sys.exit(1)


def main(words):
    name = words[0] if words else "dfsolve"
    folder = f"{CRATES}/{name}"
    if not os.path.isdir(os.path.join(folder, "src")):
        sys.exit(f"tools/proof prove: there is no crate {name}")
    if not shutil.which("rt"):
        sys.exit("tools/proof prove: the toolchain's rt is not on the PATH")
    try:
        prove_by_module(folder)
    except (ImportError, AttributeError, TypeError) as why:
        print(f"tools/proof prove: this toolchain's rtlib is another one ({why}), so `rt all check` proves", file=sys.stderr, flush=True)
        prove_by_commands(folder)
