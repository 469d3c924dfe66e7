"""Compares the lists of changes in the table `trees`, and their answers, with those of a plain map.

    tools/check lists             tells whether crates/tables/stdin has the lists, and stdout their answers; ends with 1 if one has others
    tools/check lists --write     writes both anew

A tree is here one map from paths to entries, which shares nothing with another one: the trees of the program share
folders, and a change to one must be seen in no other. Each change is made to any of the trees before, and copies from
any of them; at the end all of them are summed up.
"""
import re
import sys

from common import CRATES

LISTS = 1000
CHANGES = 8
NAMES = ["a", "b", "c"]
# Every tenth list fills one folder with more names than a part of it may have, and then changes it and its copies.
WIDE_NAMES = [f"n{number:02}" for number in range(40)]
WIDE_FILLS = 32
WIDE_CHANGES = 28
TEXTS = ["", "x", "yy", "zzz"]
MODES = ["755", "644"]
ROOT = ()
MADE = ("755", None)


class Dice:
    """Numbers that look random: a linear congruential generator."""

    def __init__(self, seed, is_wide):
        self.state = seed
        self.is_wide = is_wide

    def below(self, bound):
        self.state = (self.state * 6364136223846793005 + 1442695040888963407) % 2**64
        return (self.state >> 33) % bound

    def of(self, values):
        return values[self.below(len(values))]

    def path(self):
        if self.is_wide and self.below(4):
            return "w", self.of(WIDE_NAMES)
        return tuple(self.of(NAMES) for _ in range(self.below(4)))

    def path_in(self, tree):
        """Mostly one at which something stands."""
        return self.of(sorted(tree)) if self.below(4) else self.path()


class Fails(Exception):
    """What was asked fails for this cause."""


def text_of(path):
    return "/" + "/".join(path)


def is_folder(entry):
    return entry is not None and entry[1] is None


def is_blocked(tree, path):
    """Whether a file stands on the way to a path."""
    return any(path[:depth] in tree and not is_folder(tree[path[:depth]]) for depth in range(len(path)))


def put(tree, path, entry):
    there = tree.get(path)
    if is_blocked(tree, path):
        raise Fails("F2")
    if is_folder(there) and not is_folder(entry):
        raise Fails("F4")
    if there is not None and not is_folder(there) and is_folder(entry):
        raise Fails("F2")
    for depth in range(len(path)):
        tree.setdefault(path[:depth], MADE)
    tree[path] = entry


def remove(tree, path):
    if path == ROOT or path not in tree:
        raise Fails("F1")
    for other in [other for other in tree if other[: len(path)] == path]:
        del tree[other]


def over(lower, upper):
    kept = {path: entry for path, entry in lower.items() if path not in upper and not is_blocked(upper, path)}
    return {**kept, **upper}


def copy(tree, origin, source, dest, into):
    if source not in origin:
        raise Fails("F1")
    if not is_folder(origin[source]):
        inside = into or is_folder(tree.get(dest))
        put(tree, dest + source[-1:] if inside else dest, origin[source])
        return
    if not is_folder(tree.get(dest)):
        put(tree, dest, MADE)
    for path in sorted(origin):
        if path[: len(source)] == source and path != source:
            put(tree, dest + path[len(source) :], origin[path])


def change(dice, trees):
    """One change as its step, the tree that it makes, and its cause if it fails."""
    number, other = dice.below(len(trees)), dice.below(len(trees))
    path, kind = dice.path(), dice.below(8)
    tree = dict(trees[number])
    try:
        if kind == 0:
            path = dice.path_in(tree)
            step = f"{number} remove {text_of(path)}"
            remove(tree, path)
        elif kind == 1:
            step = f"{number} over {other}"
            tree = over(tree, trees[other])
        elif kind < 4:
            source, slash = dice.path_in(trees[other]), dice.of(["", "/"]) if path else ""
            step = f"{number} copy {other} - {text_of(path)}{slash} {text_of(source)}"
            copy(tree, trees[other], source, path, slash == "/" or not path)
        elif dice.below(3) == 0:
            mode = dice.of(MODES)
            step = f"{number} folder {mode}:0:0 {text_of(path)}"
            put(tree, path, (mode, None))
        else:
            mode, text = dice.of(MODES), dice.of(TEXTS)
            step = f"{number} file {mode}:0:0 {text_of(path)} {text}".rstrip()
            put(tree, path, (mode, text))
    except Fails as cause:
        return step, trees[number], str(cause)
    return step, tree, None


def fill(dice, trees):
    """A file more in the wide folder of the last tree, as its step and the tree that it makes."""
    path, text = ("w", dice.of(WIDE_NAMES)), dice.of(TEXTS)
    tree = dict(trees[-1])
    put(tree, path, ("644", text))
    return f"{len(trees) - 1} file 644:0:0 {text_of(path)} {text}".rstrip(), tree, None


def listing(tree):
    return [f"{text_of(path)} {mode} 0:0{text or ''}" for path, (mode, text) in sorted(tree.items())]


def sum_of(text):
    total = 0
    for byte in text.encode():
        total = (total * 1000003 + byte) % 2**64
    return total


def make_list(seed):
    """A list's case and its answer."""
    is_wide = seed % 10 == 9
    dice, trees, steps, told = Dice(seed, is_wide), [{ROOT: MADE}], [], []
    fills, changes = (WIDE_FILLS, WIDE_CHANGES) if is_wide else (0, CHANGES)
    for number in range(fills + changes):
        step, tree, cause = (fill if number < fills else change)(dice, trees)
        steps.append(step)
        trees.append(tree)
        told += [cause] if cause else []
    told.append(str(sum_of("; ".join(line for tree in trees for line in listing(tree)))))
    return f"list_{seed} | {' | '.join(steps + ['0 sums'])}\n", f"list_{seed}: {'; '.join(told)}\n"


def with_lists(before, lines):
    """The text of a file with these lists in place of its own, which stand one after another."""
    rows = before.splitlines(True)
    places = [place for place, line in enumerate(rows) if re.match(r"list_\d", line)]
    rows[places[0] : places[-1] + 1] = lines
    return "".join(rows)


def main(words):
    if words not in ([], ["--write"]):
        sys.exit(__doc__)
    others = 0
    for name, lines in zip(["stdin", "stdout"], zip(*map(make_list, range(LISTS)))):
        with open(f"{CRATES}/tables/{name}", encoding="utf-8", newline="") as old:
            before = old.read()
        after = with_lists(before, lines)
        if words:
            with open(f"{CRATES}/tables/{name}", "w", encoding="utf-8", newline="") as new:
                new.write(after)
        else:
            others += after != before
            print(f"crates/tables/{name} has {'the lists' if after == before else 'other lists: tools/check lists --write makes them anew'}")
    return 1 if others else 0
