"""Takes libraries that `rt ci` built on this machine, for checks here.

    tools/proof take            what runs of `rt ci` kept beside the toolchain
    tools/proof take FROM       what one left in another checkout, whose top is FROM: for a toolchain that keeps nothing

`rt ci` builds libraries of statements, and `rt lib` and `tools/proof prove` build libraries that hold their proofs
too. A check of an upper crate over statements takes a third of the time and of the memory. `rt ci` leaves no sum with
them, by which `rt check` knows that a library is of the sources that stand here, so this writes it. A library is
taken only if it was built of the sources that stand here, and if all below it were taken. It prints how many were
taken, and which crates lack theirs.
"""
import os
import shutil
import sys

from common import TOP, keep_sums, rtlib, toolchain


def sources(folder):
    """A crate's files by their names in the crate."""
    found = {}
    for file in rtlib().files_of(folder):
        with open(file, "rb") as it:
            found[os.path.relpath(file, folder)] = it.read()
    return found


def text_of(path):
    try:
        with open(path, encoding="utf-8") as it:
            return it.read()
    except OSError:
        return None


class Checkout:
    """What `rt ci` left in another checkout."""

    def __init__(self, top):
        self.top = os.path.abspath(top)

    def give(self, crate):
        there = f"{self.top}/crates/{crate.name}"
        library = f"{there}/out/rlib/{crate.name}.rlib"
        if not os.path.isdir(library) or sources(there) != sources(crate.folder):
            return False
        shutil.rmtree(os.path.dirname(crate.rlib), ignore_errors=True)
        shutil.copytree(library, crate.rlib)
        return True


class Kept:
    """What runs of `rt ci` kept. A library's key is a sum of its sources, and of the libraries below as they were built."""

    def __init__(self, crates):
        self.kept = toolchain().Kept(crates)

    def give(self, crate):
        key, mark = self.kept.key(crate), f"{os.path.dirname(crate.rlib)}/key"
        if text_of(mark) != key or not os.path.isdir(crate.rlib):
            shutil.rmtree(os.path.dirname(crate.rlib), ignore_errors=True)
            if not self.kept.give(crate, False, key):
                return False
            with open(mark, "w", encoding="utf-8") as it:
                it.write(key)
        self.kept.is_built(crate)
        return True


def main(words):
    if len(words) > 1:
        sys.exit(__doc__)
    rt = toolchain()
    os.chdir(TOP)
    rt.Crate.allowed = rt.handles_of(TOP)
    rt.Crate.cuts_libraries = True
    crates = rt.crates_of(TOP)
    keep_sums(rt.Crate)
    if not words and not hasattr(rt, "Kept"):
        sys.exit("tools/proof take: this toolchain keeps nothing: name a checkout in which rt ci ran")
    origin = Checkout(words[0]) if words else Kept(crates)
    taken, lacking = set(), []
    for crate in crates:
        if not crate.is_program and all(it.name in taken for it in crate.below()) and origin.give(crate):
            with open(f"{os.path.dirname(crate.rlib)}/stamp", "w", encoding="utf-8") as it:
                it.write(crate.stamp())
            taken.add(crate.name)
        else:
            lacking.append(crate.name)
    print(f"{len(taken)} libraries taken; without one: {' '.join(lacking) or 'none'}")
