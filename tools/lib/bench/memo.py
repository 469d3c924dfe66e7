"""Times a second build with the memo that a first one filled.

    tools/bench memo [--program P] FILE[,OTHER] ..

The bundle in FILE is built, and then OTHER, or FILE again, with the same memo. The first build's seconds are those of
a program that builds FILE alone, and the second's what a program takes longer that builds both. Of three runs the
least counts. The most memory has the texts of the case's bundles and answers in it. P is the program `tables`, if it
isn't the one that `rt ci` leaves: a bundle is a case of its table `memos`. A file's one line ends with a line feed.
"""
import argparse
import os
import shutil
import sys
import tempfile

from check.second_builds import BETWEEN, HEAD
from common import TABLES
from runs import timed


def built(program, files):
    """What a program takes that builds the bundles in these files with one memo, and how many commands it runs."""
    with tempfile.TemporaryFile() as given, tempfile.TemporaryFile() as answers:
        given.write(HEAD)
        for number, file in enumerate(files):
            if number:
                # (in place of the line feed)
                given.seek(-1, os.SEEK_CUR)
                given.write(BETWEEN.encode())
            with open(file, "rb") as bundle:
                shutil.copyfileobj(bundle, given)
        given.flush()
        took = timed([program], given, answers)
        if took.status:
            sys.exit(f"{program} ended with {took.status}")
        return took, last_count(answers)


def last_count(answers):
    """The number before the last answer. They are read in pieces: a child has at least the memory that this program has when it is made."""
    answers.seek(0)
    begun, is_first = b"", True
    while piece := answers.read(1 << 16):
        before, newline, after = piece.rstrip(b"\n").rpartition(b"\n")
        if is_first or newline:
            begun, is_first = after[:20], False
        elif len(begun) < 20:
            begun += piece[:20]
    return int(begun.partition(b":")[0])


def main(words):
    parser = argparse.ArgumentParser(prog="tools/bench memo")
    parser.add_argument("files", nargs="+", metavar="FILE[,OTHER]")
    parser.add_argument("--program", default=TABLES)
    options = parser.parse_args(words)
    print("| Bundle | First build, s | Second, s | Commands run in the first | In the second | Most memory after one, MiB | After both |")
    print("|---|---|---|---|---|---|---|")
    for name in options.files:
        files = name.split(",")
        one, count_of_one = min(built(options.program, files[:1]) for _ in range(3))
        two, count_of_two = min(built(options.program, [files[0], files[-1]]) for _ in range(3))
        shown = ", then ".join(map(os.path.basename, files))
        counts = f"{count_of_one} | {count_of_two - count_of_one}"
        print(f"| {shown} | {one.clock:.3f} | {two.clock - one.clock:.3f} | {counts} | {one.memory:.0f} | {two.memory:.0f} |", flush=True)
