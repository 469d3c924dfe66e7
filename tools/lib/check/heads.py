"""Compares calls in the examples of crates and pages with how many values these calls take.

    tools/check heads      prints each call that isn't so; ends with 1 if there is one

A crate's first comment has an example between lines of three backticks, and a page one in a block `rust`. Nothing compiles
them, so their calls are compared
with the definitions of the crate, else of those below it: `Type::name(..)` with that type's, `it.name(..)` with any of that
name which takes a `self`, and `name(..)` with functions of no type. What none of these has is the toolchain's.
"""
import glob
import os
import re

from check import _blocks
from common import CRATES, TOP, below, crates

BLOCK = re.compile(r"```\n(.*?)```", re.S)
COMMENT = re.compile(r"(?:^|(?<=\s))//.*$", re.M)
CALL = re.compile(r"(?:(\w+)(?:::<[^()]*?>)?::|(\.))?\b([a-z_]\w*)(?:::<[^()]*?>)?\(")
DEFINED = re.compile(r"^(?:(?:impl|trait|pub trait)\b(?P<owner>.*)|.*?\bfn (?P<name>[a-z_]\w*)|(?P<end>\}))", re.M)
OWNER = re.compile(r"(?:.* for )?\s*(?:<.*?>\s*)?(?:\w+::)*(\w+)")
SELF = re.compile(r"(?:&(?:'\w+ )?)?(?:mut )?self\b")
OPEN, CLOSE = "([{", ")]}"


def values(text, begin):
    """The values between the bracket at a place and the one that closes it, or nothing where none does."""
    found, depth, angles, quoted, place = [""], 0, 0, False, begin + 1
    while place < len(text):
        letter = text[place]
        if quoted:
            place += letter == "\\"
            quoted = letter != '"'
        elif letter == '"':
            quoted = True
        elif letter in CLOSE and depth == 0:
            return [it.strip() for it in found if it.strip()]
        depth += (letter in OPEN) - (letter in CLOSE) if not quoted else 0
        if letter == "<":
            angles += 1
        elif letter == ">" and text[place - 1] not in "-=":
            angles = max(0, angles - 1)
        if letter == "," and depth == 0 and angles == 0 and not quoted:
            found.append("")
        else:
            found[-1] += letter
        place += 1
    return None


def past_parameters(text, place):
    """The place past the type parameters that begin at a place."""
    depth = 0
    while place < len(text):
        depth += (text[place] == "<") - (text[place] == ">" and text[place - 1] not in "-=")
        place += 1
        if depth == 0:
            return place
    return place


def definitions(crate):
    """How many values each function of a crate takes beside `self`, and whether it takes that, by its type and its name."""
    found = []
    for path in glob.glob(f"{CRATES}/{crate}/src/**/*.rt", recursive=True):
        with open(path, encoding="utf-8") as it:
            text = COMMENT.sub("", it.read())
        owner = None
        for line in DEFINED.finditer(text):
            if line["owner"] is not None:
                named = OWNER.match(line["owner"])
                owner = named[1] if named else None
            elif line["end"]:
                owner = None
            else:
                place = past_parameters(text, line.end()) if text[line.end()] == "<" else line.end()
                taken = values(text, place) if text[place] == "(" else None
                if taken is not None:
                    has_self = bool(taken) and SELF.match(taken[0]) is not None
                    found.append((owner, line["name"], len(taken) - has_self, has_self))
    return found


def examples(crate):
    """The blocks of a crate's first comment, without comments."""
    lines = []
    for path in (f"{CRATES}/{crate}/src/lib.rt", f"{CRATES}/{crate}/src/main.rt"):
        if os.path.exists(path):
            with open(path, encoding="utf-8") as it:
                for line in it:
                    if not line.startswith("//"):
                        break
                    lines.append(line[2:].strip())
    return [COMMENT.sub("", block) for block in BLOCK.findall("\n".join(lines))]


def is_meant(call, owner, has_self):
    """Whether a call may be one of a function of this type, or of none."""
    if call[1]:
        return owner == call[1]
    return has_self if call[2] else owner is None


def counts(call, defined):
    """How many values a call may have by these definitions."""
    meant = [(count, has_self) for owner, name, count, has_self in defined if name == call[3] and is_meant(call, owner, has_self)]
    return {count + (has_self and bool(call[1])) for count, has_self in meant}


def wrong_calls(blocks, own, lower):
    """The calls of examples that have another number of values than they take, each with that number."""
    for block in blocks:
        for call in CALL.finditer(block):
            taken = values(block, call.end() - 1)
            there = counts(call, own) or counts(call, lower)
            if taken is not None and there and len(taken) not in there:
                yield f"{call[3]} is called with {len(taken)} values, and takes {' or '.join(map(str, sorted(there)))}"


def main(_words):
    listed = crates()
    tables = {crate: definitions(crate) for crate in listed}
    wrong, count = 0, 0
    for crate, libraries in listed.items():
        lower = [it for name in below(libraries, listed, []) for it in tables[name]]
        faults = [*wrong_calls(examples(crate), tables[crate], lower)]
        count += len(examples(crate))
        wrong += len(faults)
        for why in faults:
            print(f"{os.path.relpath(CRATES, TOP)}/{crate}: {why}")
    everything = [it for table in tables.values() for it in table]
    for page in _blocks.pages():
        blocks = [COMMENT.sub("", block.text) for block in _blocks.blocks_of(page) if block.kind == "rust"]
        count += len(blocks)
        for why in wrong_calls(blocks, everything, []):
            wrong += 1
            print(f"{page}: {why}")
    print(f"{count} examples, {wrong} calls of them wrong")
    return 1 if wrong else 0
