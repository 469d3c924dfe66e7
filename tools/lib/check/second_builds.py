"""Builds many bundles through one memo, and compares the answers with those of builds without it.

    tools/check second-builds [--count N] [--seed S] [--builder FILE] [--memo FILE]

The bundles are those of the table `programs`, and others made of them: with a file of the context changed, a line
more, a line less, two lines exchanged. So many of them (1,000) are built, each twice, in random order. A bundle that
isn't built within 10 seconds and 2 GiB, as one that doubles its trees may, is left out. `--builder` is the program
`dfsolve` and `--memo` the program `tables`, if they aren't those that `rt ci` leaves: all bundles are one case of its
table `memos`. It prints how many builds there were, how many commands ran in them, and each bundle whose answers
differ, and ends with 1 if one does.
"""
import argparse
import concurrent.futures
import json
import os
import random
import subprocess
import sys

import bundles
from common import PROGRAM, TABLES
from runs import answered, limits

MARK = " | dfsolve build | "
# what stands before the first bundle of a case, and between each and the next
HEAD = b"== memos\nsecond_builds | "
BETWEEN = " ⏎ "
MOST_SECONDS = 10
MOST_BYTES = 2 << 30


def rows():
    """The bundles of the tables that are built as they stand."""
    found = [line.partition(MARK) for lines in bundles.tables().values() for line in lines]
    return [bundle for _, mark, bundle in found if mark]


def changed(text, made):
    """A bundle of which one thing is another, if it is one of which that can be said."""
    try:
        bundle = json.loads(text)
        lines = bundle["dockerfile"]["text"].split("\n")
    except (ValueError, KeyError, TypeError, AttributeError):
        return text
    if not isinstance(bundle.get("context", []), list):
        return text
    files = [it for it in bundle.get("context", []) if isinstance(it, dict) and "text" in it]
    kind = made.randrange(4)
    if kind == 0 and files:
        made.choice(files)["text"] = made.choice("ab")
    elif kind == 1:
        lines.insert(made.randrange(1, len(lines) + 1), made.choice(["RUN put /m 1", "RUN true", "WORKDIR /w", "RUN put /m 2"]))
    elif kind == 2 and len(lines) > 2:
        del lines[made.randrange(1, len(lines))]
    elif len(lines) > 2:
        at = made.randrange(1, len(lines) - 1)
        lines[at], lines[at + 1] = lines[at + 1], lines[at]
    bundle["dockerfile"]["text"] = "\n".join(lines)
    # with escapes, since half a character can't be encoded
    return json.dumps(bundle, separators=(",", ":"))


def chosen(count, made):
    """So many bundles, each twice, in random order."""
    of_table = rows()
    picked = []
    for _ in range(count):
        bundle = made.choice(of_table)
        for _ in range(made.randrange(3)):
            bundle = changed(bundle, made)
        picked.append(bundle)
    picked = [it for it in picked if "\n" not in it and "\r" not in it and BETWEEN not in it]
    picked += picked
    made.shuffle(picked)
    return picked


def built_alone(program, bundle):
    """The answer of a build without a memo, if there is one within the limits."""
    try:
        run = answered(program, ["build"], bundle.encode(), timeout=MOST_SECONDS, preexec_fn=limits(MOST_BYTES))
    except subprocess.TimeoutExpired:
        return None
    return run.stdout.decode().rstrip("\n") if run.returncode in (0, 1, 2) else None


def main(words):
    parser = argparse.ArgumentParser(prog="tools/check second-builds")
    parser.add_argument("--count", type=int, default=1000)
    parser.add_argument("--seed", default="1")
    parser.add_argument("--builder", default=PROGRAM)
    parser.add_argument("--memo", default=TABLES)
    options = parser.parse_args(words)
    picked = chosen(options.count, random.Random(options.seed))
    different = sorted(set(picked))
    with concurrent.futures.ThreadPoolExecutor(os.cpu_count()) as lanes:
        alone = dict(zip(different, lanes.map(lambda it: built_alone(options.builder, it), different)))
    left_out = sum(1 for it in different if alone[it] is None)
    picked = [it for it in picked if alone[it] is not None]
    run = answered(options.memo, [], HEAD + BETWEEN.join(picked).encode() + b"\n", timeout=3600)
    # (the heading and the case's name come first)
    answers = run.stdout.decode().split("\n")[2:-1]
    if run.returncode or len(answers) != len(picked):
        sys.exit(f"{options.memo} ended with {run.returncode} and {len(answers)} answers to {len(picked)} bundles")
    wrong = 0
    for bundle, answer in zip(picked, answers):
        if answer.partition(": ")[2] != alone[bundle]:
            wrong += 1
            print(f"differs: {bundle}\n  with a memo: {answer}\n  without one: {alone[bundle]}")
    print(f"{len(picked)} builds of {len(different) - left_out} bundles, {left_out} left out, {answers[-1].partition(': ')[0]} commands run, {wrong} answers differ")
    return 1 if wrong else 0
