"""Refuses each allocation of a build in turn, and each start of a thread.

    tools/check allocations                       of each row of the table `stores`: its bundle's build, and the row itself; and three builds with one memo
    tools/check allocations WORKERS [BUNDLE]      the build of this bundle alone, or of the first example, by so many workers

A build with a refused allocation has to give the right answer, or `out of memory` with status 3 and nothing on
standard output. A row of `stores` solves a plan twice over one store and with one memo: after want of memory no lease
may be out, and the second time has to give the answer. Of three builds with one memo (a row of the table `memos`)
each has to give its answer or want memory, and those after it find what is kept, or run it again. A thread that isn't
started changes nothing. Each run has to end within 60 seconds.

Options: --program FILE and --tables FILE are the programs of the crates `dfsolve` and `tables`, by default those that
`rt ci` or `rt run` left in these crates (or, of dfsolve, the one that `./run` made); --jobs N, how many runs at a
time. It takes the C compiler that CC names, or `cc`, or the toolchain's clang, and prints how many runs there were.
With several workers the number of allocations differs from run to run, so a tenth more are refused than one run asks
for, and what a refusal hits differs too.
"""
import argparse
import collections
import concurrent.futures
import itertools
import os
import shlex
import shutil
import subprocess
import sys
import tempfile

import bundles
from common import CRATES, LIB, TOP, kit
from runs import answered

PROGRAMS = ["dfsolve/out/dfsolve", "dfsolve/out/proved/dfsolve", "dfsolve/out/unproved/dfsolve"]
TABLES = ["tables/out/tables"]
MEMORY = b"out of memory"
# a row of `tables` of which the program has no answer, for want of memory outside of the two solves
NO_CASE = b": out of memory, or no case\n"


class Wrong(Exception):
    pass


class Case:
    """A run that is repeated, its right answer, and which other answers may come for want of memory."""

    def __init__(self, name, words, given, workers):
        self.name, self.words, self.given, self.workers = name, words, given, workers
        self.right, self.allocations, self.threads = None, 0, 0

    def run(self, folder, refused=0, thread="0"):
        with tempfile.NamedTemporaryFile(dir=folder) as count:
            env = {"LD_PRELOAD": f"{folder}/refuse.so", "REFUSE": str(refused), "REFUSE_THREAD": thread, "COUNT": count.name}
            ran = answered(self.words[0], self.words[1:], self.given, env=env, timeout=60)
            numbers = count.read().split()
        return (ran.returncode, ran.stdout, ran.stderr), [int(it) for it in numbers]

    def begin(self, folder):
        """The run of which nothing is refused."""
        self.right, numbers = self.run(folder)
        if len(numbers) != 2 or not self.is_answer():
            raise Wrong(f"{self.name}: {self.right}")
        self.allocations, self.threads = numbers

    def is_answer(self):
        return self.right[0] in (0, 1) and self.right[1] != b"" and self.right[2] == b""

    def kind(self, ended):
        """What an end of a run with a refused allocation is; none if it is wrong."""
        if ended == self.right:
            return "right answers"
        return "out of memory" if ended == (3, b"", MEMORY + b"\n") else None

    def refuse(self, folder, number):
        try:
            ended, _ = self.run(folder, number)
        except subprocess.TimeoutExpired:
            raise Wrong(f"{self.name}, allocation {number} of {self.allocations} refused: no end within 60 seconds")
        kind = self.kind(ended)
        if kind is None:
            raise Wrong(f"{self.name}, allocation {number} of {self.allocations} refused: {ended}")
        return kind

    def refuse_thread(self, folder, thread):
        ended, _ = self.run(folder, 0, thread)
        if ended != self.right:
            raise Wrong(f"{self.name}, start of thread {thread} refused: {ended}")


class Row(Case):
    """A row of `stores`: of its two solves one may want memory, or what is around them, and its answer is in the table."""

    def __init__(self, tables, row, wanted, workers):
        self.row, self.wanted = row, wanted
        super().__init__(f"row {shown(row)} by {workers}", [tables], b"== stores\n" + row + b"\n", workers)

    def is_answer(self):
        return self.right == (0, b"== stores\n" + self.wanted + b"\n", b"")

    def kind(self, ended):
        status, output, _ = ended
        if ended == self.right:
            return "right answers"
        # (the heading's own text may be what was refused)
        heads = [b"== stores\n", b"== stores" + NO_CASE]
        rest = next((output[len(head) :] for head in heads if output.startswith(head)), None)
        name, answers = self.wanted.split(b": ", 1)
        answer = answers.split(b"; then ")[0]
        solves = [name + b": " + text + b"\n" for text in (MEMORY + b"; then " + answer, answer + b"; then " + MEMORY)]
        if status == 0 and rest in solves:
            return "out of memory in one of the solves"
        others = [self.wanted + b"\n", self.row + NO_CASE] if status == 0 else [b""]
        return "out of memory around them" if rest in others or status != 0 and output == b"" else None


class Builds(Case):
    """A row of `memos`: each of its builds gives its own answer, or wants memory. How many commands ran by then may differ."""

    def __init__(self, tables, row, wanted):
        self.row, self.wanted = row, wanted
        super().__init__(f"row {shown(row)}", [tables], b"== memos\n" + row + b"\n", 4)

    def is_answer(self):
        return self.right == (0, b"== memos\n" + b"\n".join(self.wanted) + b"\n", b"")

    def kind(self, ended):
        status, output, _ = ended
        if ended == self.right:
            return "right answers"
        if status != 0:
            return "out of memory around them" if self.right[1].startswith(output) else None
        # (the heading's own text may be what was refused)
        lines = output.rstrip(b"\n").split(b"\n")[1:]
        if lines == [self.row + NO_CASE.rstrip(b"\n")]:
            return "out of memory around them"
        answers = [line.partition(b": ")[2] for line in self.wanted[1:]]
        are_right = [line == MEMORY or line.partition(b": ")[2] == answer for line, answer in zip(lines[1:], answers)]
        if lines[:1] != self.wanted[:1] or len(lines) != len(self.wanted) or not all(are_right) or lines.count(MEMORY) > 1:
            return None
        return "out of memory in one of the builds" if MEMORY in lines else "right answers"


def shown(row):
    return row.split(b" | ")[0].decode()


def table(name, file):
    """The lines of a table, up to an empty one."""
    return [line.encode() for line in itertools.takewhile(bool, bundles.tables(file)[name])]


def cases(program, tables):
    """The builds and rows of `stores`, but for those whose executor wants memory."""
    for row, wanted in zip(table("stores", "stdin"), table("stores", "stdout")):
        name, workers, bundle = row.split(b" | ", 2)
        if b" from " in workers:
            continue
        words = [program, "build", "--workers", workers.decode()]
        yield Case(f"build of {name.decode()} by {workers.decode()}", words, bundle, int(workers))
        yield Row(tables, row, wanted, int(workers))


def builds(tables):
    """The row of `memos` whose second build finds what the first one gave, and whose third one finds a part."""
    row = next(it for it in table("memos", "stdin") if it.startswith(b"memo_of_three_builds | "))
    count = row.count(" ⏎ ".encode()) + 1
    lines = table("memos", "stdout")
    begin = lines.index(shown(row).encode())
    yield Builds(tables, row, lines[begin : begin + 1 + count])


def found(given, usual, what):
    places = [given] if given else [f"{CRATES}/{it}" for it in usual]
    there = [os.path.abspath(it) for it in places if os.path.isfile(it)]
    if not there:
        sys.exit(f"there is no program of {what}: {places[0]}")
    # what `rt ci` kept of an earlier run comes back without the right to be run
    os.chmod(there[0], 0o755)
    return there[0]


def compiler():
    """The C compiler: what CC names, or `cc`, or the clang of the toolchain, which needs no other."""
    named = shlex.split(os.environ.get("CC", "cc"))
    if shutil.which(named[0]):
        return named
    clang = f"{kit()}/toolchain/bin/clang" if shutil.which("rt") else None
    if not clang or not os.access(clang, os.X_OK):
        sys.exit(f"there is no C compiler: neither {named[0]} nor the toolchain's clang")
    return [clang, "-fuse-ld=lld"]


def compiled(folder):
    words = ["-O1", "-shared", "-fPIC", "-nostdlib", "-o", f"{folder}/refuse.so", f"{LIB}/check/refuse.c"]
    subprocess.run([*compiler(), *words], check=True)


def tried(case, folder, pool):
    """Tries a case, and prints how many runs there were."""
    case.begin(folder)
    most = case.allocations if case.workers == 1 else case.allocations + case.allocations // 10
    kinds = collections.Counter(pool.map(lambda number: case.refuse(folder, number), range(1, most + 1)))
    threads = [*map(str, range(1, case.threads + 1)), "all"] if case.threads else []
    list(pool.map(lambda thread: case.refuse_thread(folder, thread), threads))
    found = ", ".join(f"{count} {kind}" for kind, count in sorted(kinds.items(), reverse=True))
    print(f"{case.name}: {most} allocations refused: {found}; {len(threads)} runs without a thread", flush=True)
    return most + len(threads)


def main(words):
    parser = argparse.ArgumentParser(prog="tools/check allocations")
    parser.add_argument("workers", nargs="?", type=int)
    parser.add_argument("bundle", nargs="?", default=f"{TOP}/examples/first.json")
    parser.add_argument("--program")
    parser.add_argument("--tables")
    parser.add_argument("--jobs", type=int, default=1)
    options = parser.parse_args(words)
    program = found(options.program, PROGRAMS, "dfsolve")
    if options.workers:
        with open(options.bundle, "rb") as it:
            bundle = it.read()
        name = f"build of {os.path.basename(options.bundle)} by {options.workers}"
        all_cases = [Case(name, [program, "build", "--workers", str(options.workers)], bundle, options.workers)]
    else:
        tables = found(options.tables, TABLES, "tables")
        all_cases = [*cases(program, tables), *builds(tables)]
    with tempfile.TemporaryDirectory(prefix="refuse-") as folder, concurrent.futures.ThreadPoolExecutor(options.jobs) as pool:
        compiled(folder)
        try:
            runs = sum(tried(case, folder, pool) for case in all_cases)
        except Wrong as why:
            sys.exit(f"wrong: {why}")
    print(f"{runs} runs, each as it should be")
