"""Says which definitions a reader has to believe: all of them, or those of one call.

    tools/docs definitions                   prints a page: each definition that a public contract reaches, with its rule,
                                             its public source and its file
    tools/docs definitions --output FILE     writes the page to FILE
    tools/docs definitions CALL..            prints what the contract of a public call rests on, as `run_build` or
                                             `Tree::put`: each definition with its rule and text, the nearest first
    tools/docs definitions --unreached       prints the definitions of specs/ that no public contract reaches
    tools/docs definitions --check           makes the page, and ends with 1 if it lacks a name of specs/, or a row isn't
                                             as it should be

The rule is the comment above the definition. The source is what the comment names in brackets, as "(OCI image
specification)", else what the file's first comment names, else "own". Laws of traits and views of types aren't among
the definitions: they stand at the trait and the type.
"""
import argparse
import collections
import glob
import itertools
import os
import re
import sys

from common import CRATES, TOP, crates

SOURCES = [
    "Dockerfile reference",
    "BuildKit's LLB",
    "OCI image specification",
    ".dockerignore rules",
    "BuildKit's parser",
    "Go's path.Clean",
    "Go's filepath.Match",
    "POSIX",
    "Protocol Buffers encoding",
    "The DOT Language",
    "RFC 8259, 7",
]
START = re.compile(r"^(?:abbrev pub(?: record| data)? |unfoldable pub(?! use) |pub record |pub data )(\S+)")
IN_MUTUAL = re.compile(r"^  pub (\S+) :")
WORD = re.compile(r"[^\s(){}\[\],;.]+")
IMPORT = re.compile(r"(?:ghost |pub |unfoldable )*use Rattle\.([\w.]+?)\.\{([^}]*)\}")
CALL = re.compile(r"^\s*(pub )?(?:const )?fn (\w+)")
ROW = re.compile(r"\| `([^`]+)` \| ((?:[^|]|\\\|)+) \| ([^|]+) \| `(\S+)\.antt` \|")
# how many had no comment of their own when this was written, most of them in groups under one comment
MOST_WITHOUT_RULE = 136


def source_of(*texts):
    for text in texts:
        if "(own" in text:
            return "own"
        for source in SOURCES:
            if source in text.replace("`", ""):
                return source
    return "own"


def imports(text):
    """What each imported name of a file means: (module path, name there)."""
    known = {}
    for module, names in IMPORT.findall(text):
        for item in names.split(","):
            item = item.strip()
            if item:
                there, _, here = item.partition(" as ")
                known[(here or there).strip()] = (module, there.strip())
    return known


class Definition:
    def __init__(self, crate, base, name, rule, source, text, known, at):
        self.crate, self.base, self.name = crate, base, name
        self.rule, self.source, self.text = rule, source, text
        self.known, self.at = known, at
        self.key = (crate + ".specs." + base, name)


def read_definitions(crate):
    for path in sorted(glob.glob(f"{CRATES}/{crate}/specs/**/*.antt", recursive=True)):
        base = os.path.relpath(path, f"{CRATES}/{crate}/specs")[:-5].replace(os.sep, ".")
        if base.split(".")[-1] == "Lib":
            continue
        text = open(path, encoding="utf-8").read()
        lines = text.split("\n")
        head = []
        for line in lines:
            if not line.startswith("--"):
                break
            head.append(line[2:].strip())
        known = imports(text)
        found, is_mutual, depth = [], False, ""
        for i, line in enumerate(lines):
            if line and not line.startswith(" "):
                is_mutual = line in ("mutual", "abbrev mutual")
                depth = "  " if line.startswith("module ") else ""
            match = START.match(line.removeprefix(depth)) or (IN_MUTUAL.match(line) if is_mutual else None)
            if match:
                found.append((i, match.group(1), depth))
        names = {name for _, name, _ in found}
        for i, name, depth in found:
            words, j = [], i - 1
            if lines[j] in ("mutual", "abbrev mutual"):
                j -= 1
            while j >= 0 and lines[j].lstrip().startswith("--"):
                words.insert(0, lines[j].lstrip()[2:].strip())
                j -= 1
            end = i + 1
            while end < len(lines) and not (lines[end] == "" and (end + 1 >= len(lines) or not lines[end + 1].startswith((depth + " ", depth + name + " ")))):
                end += 1
            here = dict(known)
            for other in names:
                here.setdefault(other, (crate + ".specs." + base, other))
            rule = " ".join(words)
            yield Definition(crate, base, name, rule, source_of(rule, " ".join(head)), "\n".join(lines[i:end]), here, os.path.relpath(path, TOP))


def clauses(path):
    """The contracts of a source file: (owner, call, is it public, text of its clauses)."""
    text = open(path, encoding="utf-8").read()
    lines = text.split("\n")
    owner, i, found = None, 0, []
    while i < len(lines):
        line = lines[i]
        match = re.match(r"(?:pub )?(?:impl|trait)\b(?:<[^{]*?>)?\s*(.*?)\s*\{?$", line)
        if match and not line.startswith(" "):
            words = match.group(1).split(" for ")
            name = re.match(r"[\w:]+", words[-1])
            owner = name.group(0).split("::")[-1] if name else None
            in_trait = " for " in match.group(1) or "trait " in line
        if line == "}":
            owner = None
        call = CALL.match(line)
        if call:
            public = bool(call.group(1)) or (owner is not None and in_trait)
            block, depth = [], 0
            j = i + 1
            while j < len(lines) and not re.match(r"^\s*\{$", lines[j]) and not lines[j].rstrip().endswith(";") and lines[j].strip():
                block.append(lines[j])
                j += 1
            if j < len(lines) and lines[j].rstrip().endswith(";"):
                block.append(lines[j])
            found.append((owner, call.group(2), public, "\n".join(block)))
        i += 1
    return text, found


def reach(table, start):
    seen, order, queue = set(start), list(start), list(start)
    while queue:
        key = queue.pop(0)
        definition = table.get(key)
        if definition is None:
            continue
        for word in WORD.findall(definition.text):
            target = definition.known.get(word)
            if target and target in table and target not in seen:
                seen.add(target)
                order.append(target)
                queue.append(target)
    return [key for key in order if key in table]


def cited(table, text, block):
    known = imports(text)
    return [known[word] for word in WORD.findall(block) if word in known and known[word] in table]


def models(table, crate):
    """What the public view of types rests on: the ghost items of `impl Model`, of traits and of `Display`."""
    found = []
    for path in glob.glob(f"{CRATES}/{crate}/src/**/*.rt", recursive=True):
        text = open(path, encoding="utf-8").read()
        for block in re.findall(r"ghost \w+(?:: \{[^}]*\})? ?= ?\{(.*?)\};", text, re.S):
            found += cited(table, text, block)
    return found


class Reached:
    """All definitions by their keys, what each public call cites of them, and the keys of those that public contracts reach."""

    def __init__(self):
        self.table = {it.key: it for crate in crates() for it in read_definitions(crate)}
        self.calls, start = {}, []
        for crate in crates():
            start += models(self.table, crate)
            for path in sorted(glob.glob(f"{CRATES}/{crate}/src/**/*.rt", recursive=True)):
                start += self.read_calls(crate, path)
        self.keys = set(reach(self.table, list(dict.fromkeys(start))))

    def read_calls(self, crate, path):
        """Notes the public calls of a file, and gives what they cite."""
        text, found = clauses(path)
        start = []
        for owner, name, public, block in found:
            if public:
                keys = cited(self.table, text, block)
                for call in [name, f"{owner}::{name}"] if owner else [name]:
                    self.calls.setdefault(call, []).append((crate, keys))
                start += keys
        return start


def show(table, calls, name):
    if name not in calls:
        sys.exit(f"tools/docs definitions: no public call {name}")
    for crate, keys in calls[name]:
        closure = reach(table, list(dict.fromkeys(keys)))
        print(f"# {name} of {crate}: {len(closure)} definitions, {len({table[key].at for key in closure})} files")
        for key in closure:
            definition = table[key]
            print(f"\n-- {definition.at} ({definition.source})")
            if definition.rule:
                print(f"-- {definition.rule}")
            print(definition.text)


def page(table, reached):
    """The page of definitions."""
    out = [
        "# Definitions",
        "",
        "Each definition that a public contract reaches, crate by crate from the lowest up: its name, its rule, its public source, and",
        "its file. A source \"own\" is a rule of this project. Made by `tools/docs definitions` from the comments in `specs/`;",
        "`tools/docs definitions CALL` prints what the contract of one call rests on, as `tools/docs definitions run_build`.",
    ]
    for crate in crates():
        rows = [row(table[key]) for key in table if table[key].crate == crate and key in reached]
        if rows:
            out += ["", f"## `{crate}`", "", "| Name | Rule | Source | File |", "|---|---|---|---|"] + rows
    return "\n".join(out) + "\n"


def row(definition):
    rule = definition.rule.replace("|", "\\|") or "(no rule of its own)"
    return f"| `{definition.name}` | {rule} | {definition.source} | `{definition.base}.antt` |"


# ---- what is wrong with the page, or with what it is made of ---------------------------------------
def faults(found):
    """What keeps the page from having each name of specs/ with its rule."""
    for crate in crates():
        yield from faults_of_lists(crate)
    read = collections.Counter(declared())
    for (at, name), count in read.items():
        if count > 1:
            yield f"{at}: {name} is declared {count} times"
    by_place = {(it.at, it.name) for it in found.table.values()}
    yield from (f"{at}: {name} isn't found as a definition" for at, name in sorted(set(read) - by_place))
    yield from (f"{at}: {name} isn't declared there" for at, name in sorted(by_place - set(read)) if not is_in_mutual(at, name))
    yield from faults_of_rows(found)
    without = [it for it in found.table.values() if not it.rule]
    if len(without) > MOST_WITHOUT_RULE:
        yield f"{len(without)} definitions have no comment above them, and {MOST_WITHOUT_RULE} had none when this was written; a new one gets one: " + ", ".join(f"{it.at} {it.name}" for it in without)


def faults_of_lists(crate):
    """What differs between the files of specs/ and the list of them in Lib.antt."""
    folder = f"{CRATES}/{crate}/specs"
    there = {name[: -len(".antt")] for name in os.listdir(folder) if name.endswith(".antt")} - {"Lib"} if os.path.isdir(folder) else set()
    listed = set()
    if os.path.exists(f"{folder}/Lib.antt"):
        with open(f"{folder}/Lib.antt", encoding="utf-8") as it:
            listed = set(re.findall(r"^(?:pub )?mod (\w+)$", it.read(), re.M))
    yield from (f"crates/{crate}/specs/Lib.antt doesn't list {name}" for name in sorted(there - listed))
    yield from (f"crates/{crate}/specs/Lib.antt lists {name}, which isn't there" for name in sorted(listed - there))


def declared():
    """The file and the name of each public definition outside of `mutual`, by the words before its name, whatever their order."""
    for path in sorted(glob.glob(f"{CRATES}/*/specs/**/*.antt", recursive=True)):
        depth = ""
        for line in open(path, encoding="utf-8"):
            if line.strip() and not line.startswith(" "):
                depth = "  " if line.startswith("module ") else ""
            words = line.removeprefix(depth).split(" ")
            marks = list(itertools.takewhile({"pub", "abbrev", "unfoldable", "record", "data"}.__contains__, words))
            name = words[len(marks)].rstrip("\n") if len(marks) < len(words) else ""
            if "pub" in marks and len(marks) > 1 and name not in ("use", "mod", ""):
                yield os.path.relpath(path, TOP), name


def is_in_mutual(at, name):
    with open(f"{TOP}/{at}", encoding="utf-8") as it:
        return f"\n  pub {name} :" in it.read()


def faults_of_rows(found):
    """Rows of the page that aren't read as they were written, and definitions that it hasn't just once."""
    shown = collections.Counter()
    crate = None
    for line in page(found.table, found.keys).split("\n"):
        if line.startswith("## "):
            crate = line[len("## `") : -1]
        elif line.startswith("| `"):
            cells = ROW.fullmatch(line)
            if not cells:
                yield f"a row is malformed: {line}"
            else:
                shown[f"{crate}.specs.{cells[4]}", cells[1]] += 1
    yield from (f"{module}: {name} stands {shown[module, name]} times on the page" for module, name in sorted(found.keys) if shown[module, name] != 1)


def main(words):
    parser = argparse.ArgumentParser(prog="tools/docs definitions")
    parser.add_argument("calls", nargs="*", metavar="CALL")
    parser.add_argument("--output", metavar="FILE")
    parser.add_argument("--unreached", action="store_true")
    parser.add_argument("--check", action="store_true")
    options = parser.parse_args(words)
    found = Reached()
    if options.check:
        wrong = list(faults(found))
        print("\n".join(wrong) or f"{len(found.table)} definitions, {len(found.keys)} of them reached from public contracts, each with its row")
        return 1 if wrong else 0
    if options.unreached:
        for key, definition in found.table.items():
            if key not in found.keys:
                print(f"{definition.at}: {definition.name}")
    elif options.calls:
        for name in options.calls:
            show(found.table, found.calls, name)
    elif options.output:
        with open(options.output, "w", encoding="utf-8") as file:
            file.write(page(found.table, found.keys))
        print(f"{len(found.keys)} of {len(found.table)} definitions are reached from public contracts")
    else:
        print(page(found.table, found.keys), end="")
    return 0
