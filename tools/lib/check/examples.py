"""Compares what the program answers to all examples with what the pages say.

    tools/check examples             runs them by `./run`, and prints what differs
    tools/check examples PROGRAM     the same by a program that was made before

Three kinds are run: the folders and bundles of `examples/`, which the tables of docs/EXAMPLES.md tell of; the rows of
docs/formats that have lines and what these give (`_rules.py`); and the commands of all pages (`_blocks.py`).
"""
import json
import os
import re

from check import _blocks, _rules
from common import TOP
from runs import answered

OPTIONS = re.compile(r"packed with `([^`]+)`")
LINKED = re.compile(r"a merge of (\w+) inputs")
NUMBERS = {"two": 2, "three": 3, "four": 4, "five": 5}


def packed(program, folder, said):
    """The bundle of a folder, made in it with the options that its table's cell says."""
    options = " ".join(OPTIONS.findall(said)).split()
    return answered(program, ["pack", ".", *options], cwd=folder, stderr=None).stdout


def rows():
    """The cells of each row that begins with a name in backticks."""
    for line in open(os.path.join(TOP, "docs", "EXAMPLES.md"), encoding="utf-8"):
        cells = [cell.strip() for cell in line.strip().strip("|").split("|")]
        if line.startswith("| `"):
            yield cells[0].strip("`"), cells[1:]


def drawn(text):
    """A graph as its table's cell says it."""
    ops = json.loads(text)["ops"][:-1]
    merges = [len(op["inputs"]) for op in ops if op["op"] == "merge"]
    return len(ops), merges


def built(text):
    """An answer as its table's cell begins."""
    found = json.loads(text)
    return f"*failed*, line {found['line']}, `{found['cause']}`" if found["result"] == "failed" else f"*{found['result']}*"


def check(program):
    """What is wrong with the tables of docs/EXAMPLES.md, and how many rows were tried."""
    wrong, count = [], 0

    def answer(command, bundle):
        return answered(program, [command], bundle, stderr=None).stdout

    for name, cells in rows():
        path = os.path.join(TOP, "examples", name)
        bundle = open(path, "rb").read() if name.endswith(".json") else packed(program, path, cells[0])
        checks = [(built(answer("build", bundle)), cells[-1])]
        if not name.endswith(".json"):
            count, merges = drawn(answer("graph", bundle))
            named = [NUMBERS[word] for word in LINKED.findall(cells[1])]
            checks.append((f"{count} operations", cells[1]))
            checks.append((str(merges), str(named)))
        count += 1
        wrong += [f"{name}: the program answers {found}, and the table says {said}" for found, said in checks if not said.startswith(found)]
    return wrong, count


def main(words):
    program = os.path.abspath(words[0]) if words else f"{TOP}/run"
    faults = []
    for what, part in (("folders and bundles", check), ("lines of rules", _rules.check), ("commands", _blocks.check)):
        wrong, count = part(program)
        faults += wrong
        print(f"{count} {what}, {len(wrong)} differ")
    print("\n".join(faults), end="\n" if faults else "")
    return 1 if faults else 0
