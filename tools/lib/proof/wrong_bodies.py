"""Tries wrong bodies, which the prover has to refuse, and keeps of each crate what was tried.

    tools/proof wrong-bodies [CRATE..]          tries all edits of these crates; with no name, of each crate that --stale names
    tools/proof wrong-bodies --each CRATE..     the same, each edit in a check of its own, as `rt must-fail` tries them
    tools/proof wrong-bodies --stale            names each crate whose edits weren't tried since it changed; ends with 1 if there is one
    tools/proof wrong-bodies --fewer CRATE..    notes that edits of these crates were taken away, and tries none; ends with 1 if it refuses one of them

A crate's edits are the files must-fail/*.edit, which the gate tries too, and wrong-bodies/*.edit. If all are refused,
a sum of the crate's sources and edits, without the lines that are comments, is written to wrong-bodies/tried, which
is committed. --fewer writes that sum anew only if nothing else changed since the commit that wrote it last: the sum
was right there, every source is the same, and each edit that is left is one of those that were tried there. A crate
without edits has no such file.

Edits of different functions are tried in one check, of these functions and what they call, over a copy of what the
crate's out/ keeps. Contracts don't change, so each of these functions has to be refused for a reason of its own. An
edit that isn't is tried with the others that are left, then by itself in a check of the whole crate, over the kept
work, and at last from nothing, before it counts as proved. The libraries below are proved first, if they aren't.
First of all the functions have to be proved without the edits, and the whole crate where an edit changes something
outside of bodies. RT_JOBS says how many crates may be tried at once. What was refused
is kept in the crate's out/, so a run that is stopped, or finds one that isn't refused, leaves the others tried as
long as no source and no library below changes.
"""
import contextlib
import copy
import hashlib
import json
import os
import re
import resource
import shutil
import subprocess
import sys
import tempfile
import time

from common import CRATES, TOP, keep_sums, toolchain

FOLDERS = ("must-fail", "wrong-bodies")
FLAGS = ["--jobs", "1"]
# what the toolchain calls an edit that is refused, by the prover or only at one of its limits; older kits say True
REFUSED = (True, "refused", "limit")
# changed whenever what a crate's file `tried` says changes, so that its edits are tried again
TRIED_AS = b"3"
# what a line begins with that is a comment, by the file's kind
COMMENT = {".rt": b"//", ".antt": b"--"}
ONLY_NAMES = "only because a proof file names what the edit took away"


def edits_of(folder):
    found = [f"{folder}/{part}/{name}" for part in FOLDERS if os.path.isdir(f"{folder}/{part}") for name in os.listdir(f"{folder}/{part}")]
    return sorted(it for it in found if it.endswith(".edit"))


def sum_of(folder):
    """A sum of the crate's sources and edits: of their names in the crate, and of their lines that aren't comments."""
    return sum_of_files(folder, edits_of(folder) + sources_of(folder)) + "\n"


def sources_of(folder):
    return [f"{at}/{name}" for part in ("src", "specs", "proofs") for at, _, names in os.walk(f"{folder}/{part}") for name in names]


def contents(folder, files):
    """What is in these files but lines that are comments, by their names in the crate."""
    found = {}
    for path in files:
        mark = COMMENT.get(os.path.splitext(path)[1])
        with open(path, "rb") as it:
            found[os.path.relpath(path, folder)] = b"".join(line for line in it if not (mark and line.lstrip().startswith(mark)))
    return found


def sum_of_files(folder, files):
    whole = hashlib.sha256(TRIED_AS)
    for named in sorted(contents(folder, files).items()):
        whole.update(repr(named).encode())
    return whole.hexdigest()


def stale():
    """The crates with edits that weren't tried since the crate changed."""
    folders = [f"{CRATES}/{name}" for name in sorted(os.listdir(f"{CRATES}"))]
    return [os.path.basename(it) for it in folders if edits_of(it) and sum_of(it) != text_of(f"{it}/wrong-bodies/tried")]


def git(*words):
    return subprocess.run(["git", "-C", TOP, *words], check=True, capture_output=True).stdout


def why_not_fewer(name):
    """What else changed in a crate than that edits were taken away, since the commit that wrote last what was tried; none if nothing did."""
    folder = f"{CRATES}/{name}"
    commit = git("log", "-1", "--format=%H", "--", f"crates/{name}/wrong-bodies/tried").decode().strip()
    if not commit:
        return "no edit of it was ever tried"
    with tempfile.TemporaryDirectory(prefix="wrong-bodies-") as room:
        subprocess.run(["tar", "-x", "-C", room], check=True, input=git("archive", commit, f"crates/{name}"))
        was = f"{room}/crates/{name}"
        if sum_of(was) != text_of(f"{was}/wrong-bodies/tried"):
            return f"its edits weren't tried as they stand in {commit[:8]}"
        if contents(folder, sources_of(folder)) != contents(was, sources_of(was)):
            return f"its sources changed since {commit[:8]}"
        if not contents(folder, edits_of(folder)).items() <= contents(was, edits_of(was)).items():
            return f"it has an edit that wasn't tried in {commit[:8]}"
    return None


def note_fewer(names):
    """Writes anew what was tried of the crates that have fewer edits and nothing else new; prints and gives the others."""
    refused = {it: why_not_fewer(it) for it in names}
    for name, why in refused.items():
        if why:
            print(f"{name}: {why}")
        else:
            write_tried(f"{CRATES}/{name}", sum_of(f"{CRATES}/{name}"))
    return [it for it in names if refused[it]]


def write_tried(folder, tried):
    """Writes what was tried of a crate; one without edits has no such file."""
    path = f"{folder}/wrong-bodies/tried"
    if edits_of(folder):
        os.makedirs(os.path.dirname(path), exist_ok=True)
        with open(path, "w", encoding="utf-8") as it:
            it.write(tried)
    elif os.path.exists(path):
        os.remove(path)


def text_of(path):
    with contextlib.suppress(FileNotFoundError), open(path, encoding="utf-8") as it:
        return it.read()
    return ""


def functions(path, text):
    """Each function of a file that is laid out: the name that the prover gives it, its first line, that before its body, and its last one."""
    module = "" if path in ("src/lib.rt", "src/main.rt") else path[len("src/") : -len(".rt")].replace("/", "::")
    lines, owner = text.split("\n"), ""
    for at, line in enumerate(lines):
        head = re.match(r"( *)(?:pub(?:\(.*?\))? )?(?:const |unsafe )*fn (\w+)", line)
        if re.match(r"(?:unsafe )?(?:impl|trait)\b", line):
            owner = owner_of(" ".join(lines[at : at + 9]).split("{")[0])
        elif line == "}":
            owner = ""
        if head:
            opened = next((it for it in range(at, len(lines)) if re.match(rf"{head[1]}(?! ).*[{{}}]$", lines[it])), len(lines) - 1)
            ends = [it for it in range(opened, len(lines)) if lines[it] == head[1] + "}"]
            last = opened if lines[opened].endswith("}") or not ends else ends[0]
            yield "::".join(filter(None, [module, owner if head[1] else "", head[2]])), at, opened, last


def owner_of(head):
    """The name under which the prover has the functions of an impl: the type's, and the trait's after it."""
    head = head.split(" where ")[0].replace("->", "")
    while re.search(r"<[^<>]*>", head):
        head = re.sub(r"<[^<>]*>", "", head)
    words = [it.strip("&:").split("::")[-1] for it in head.split() if it not in ("unsafe", "impl", "trait")]
    if words[1:2] != ["for"]:
        return words[0]
    return words[2][:1].upper() + words[2][1:] + ("" if words[0] in ("Drop", "Model") else words[0])


class Edit:
    """An edit, and the functions in whose bodies it changes something; none if it changes something outside of bodies."""

    def __init__(self, path, folder):
        self.path, self.name = path, os.path.basename(path)[: -len(".edit")]
        self.functions, file = set(), ""
        for line in text_of(path).split("\n"):
            if line.startswith("file: "):
                file = line[len("file: ") :].strip()
            elif line.startswith("old: "):
                self.functions.add(function_around(file, text_of(f"{folder}/{file}"), line[len("old: ") :]))
        self.is_local = self.functions and None not in self.functions

    def is_named(self, places, names):
        """Whether what was refused at these lines, or in the proofs of the functions of these names, is this edit's."""
        held = lambda file, first, last: any(path == file and first <= line <= last for path, line in places)
        return any(name in names or held(file, first, last) for file, name, first, last in self.functions)


def function_around(file, text, old):
    """The function whose body has this text: its file, its name, its first line and its last one."""
    if not file.startswith("src/") or old not in text:
        return None
    line = text[: text.index(old)].count("\n")
    return next(((file, name, first, last) for name, first, opened, last in functions(file, text) if opened < line <= last), None)


class Refused:
    """What was said of the edits of a crate that were refused over its sources and libraries as they stand, by this run or an earlier one."""

    def __init__(self, crate):
        self.path = f"{crate.folder}/out/refused.json"
        self.sources = [sum_of_files(crate.folder, sources_of(crate.folder)), *(it.stamp() for it in crate.below())]
        self.said = json.loads(text_of(self.path) or "{}")

    def key(self, edit):
        return hashlib.sha256(repr((self.sources, text_of(edit.path))).encode()).hexdigest()

    def find(self, edit):
        return self.said.get(self.key(edit))

    def add(self, edit, said):
        self.said[self.key(edit)] = said
        os.makedirs(os.path.dirname(self.path), exist_ok=True)
        with open(f"{self.path}.part", "w", encoding="utf-8") as it:
            json.dump(self.said, it)
        os.replace(f"{self.path}.part", self.path)


def together(rt, crate, edits):
    """Those of the edits that can be tried at once, which are of different functions, and the texts that they make."""
    with tempfile.TemporaryDirectory(prefix="wrong-bodies-") as room:
        shutil.copytree(f"{crate.folder}/src", f"{room}/src")
        texts, taken, batch = {}, set(), []
        for edit in edits:
            made, _ = rt.read_edit(edit.path, room)
            if made is None or taken & edit.functions:
                continue
            for path, text in made.items():
                with open(f"{room}/{path}", "w", encoding="utf-8") as it:
                    it.write(text)
            batch.append(edit)
            taken |= edit.functions
            texts.update(made)
    return batch, texts


def parted(batch, said):
    """Two parts of a batch, one of whose edits doesn't compile and keeps the others from being looked at: it and the others if an error
    names it, else halves."""
    errors = [re.match(r"(?:\./)?(src/\S+):(\d+):\d+: error", it) for it in said]
    places = {(it[1], int(it[2]) - 1) for it in errors if it}
    faulty = [it for it in batch if it.is_named(places, ())]
    others = [it for it in batch if it not in faulty]
    return (faulty, others) if faulty and others else (batch[: len(batch) // 2], batch[len(batch) // 2 :])


def changed_alone(edits):
    """The flags by which a check proves the functions that these edits change, and what they call, and nothing else."""
    names = sorted({name for edit in edits for _, name, _, _ in edit.functions})
    return [word for name in names for word in ("--only", name)]


def refused_at_once(rt, crate, batch, texts, kept):
    """Those of the edits whose functions the prover refuses each for a reason of its own, in one check of all."""
    said = rt.checked(crate, texts, [*FLAGS, "--allow-holes", *changed_alone(batch)], kept).stdout.split("\n")
    if not any(it.startswith(("holes=", "only=")) for it in said) and len(batch) > 1:
        parts = [together(rt, crate, it) for it in parted(batch, said)]
        return [edit for part, changed in parts for edit in refused_at_once(rt, crate, part, changed, kept)]
    places, names = set(), set()
    for line in said:
        unproved = re.match(r"(?:note: )?(?:\./)?(src/\S+):(\d+):\d+: (?:it is not proved|error)", line)
        refused = re.match(r"(?:\./)?proofs/(\S+)/\w+\.antt:\d+:\d+: error", line)
        if unproved and not rt.unread(line, texts):
            places.add((unproved[1], int(unproved[2]) - 1))
        if refused and not re.search(r"has no field|is not in scope|has no `|was not admitted", line):
            names.add(refused[1].replace("/", "::"))
    return [it for it in batch if it.is_named(places, names)]


def refused_alone(rt, crate, edit, kept):
    """Whether the prover refuses one edit, and what the toolchain says: over the kept work, and from nothing before it counts as proved."""
    came, said = rt.must_fail(crate, edit.path, FLAGS, kept)
    if came not in REFUSED:
        came, said = rt.must_fail(crate, edit.path, FLAGS)
    return came in REFUSED, said


def verdicts(rt, crate, edits, is_each):
    """Of each edit its name, whether the prover refuses it, and what is said of that."""
    before = Refused(crate)
    # each is asked for because what came of many at once is in doubt, also in an earlier run
    known = {} if is_each else {it.name: before.find(it) for it in edits if before.find(it)}
    with tempfile.TemporaryDirectory(prefix="wrong-bodies-") as kept:
        if os.path.isdir(f"{crate.folder}/out/incremental"):
            shutil.copytree(f"{crate.folder}/out/incremental", kept, dirs_exist_ok=True)
        whole = is_each or not all(it.is_local for it in edits)
        if rt.checked(crate, {}, FLAGS if whole else [*FLAGS, *changed_alone(edits)], kept).returncode:
            return [(it.name, False, "the crate isn't proved without it") for it in edits]
        left = [it for it in edits if it.is_local and not is_each and it.name not in known]
        while left:
            batch, texts = together(rt, crate, left)
            refused = refused_at_once(rt, crate, batch, texts, kept) if batch else []
            for edit in refused:
                known[edit.name] = f"refused, one of {len(batch)} at once"
                before.add(edit, known[edit.name])
            left = [it for it in left if it not in refused]
            if not refused:
                break
        found = [(name, True, said) for name, said in known.items()]
        for edit in edits:
            if edit.name not in known:
                is_refused, said = refused_alone(rt, crate, edit, kept)
                found.append((edit.name, is_refused, said))
                if is_refused:
                    before.add(edit, said)
        return found


def built(crate, jobs):
    """Builds a library, if it isn't built, and prints what was said of it if it isn't proved."""
    if crate.is_built():
        return True
    crate = copy.copy(crate)
    with tempfile.TemporaryFile("w+", errors="replace") as crate.out:
        status = crate.build_rlib(["--jobs", str(jobs)], anew=False)
        crate.out.seek(0)
        if status:
            print(crate.out.read(), end="", flush=True)
    return not status


def tried(rt, crate, is_each):
    """Tries a crate's edits, writes what was tried if all are refused, and returns the verdicts."""
    began, were = time.time(), sum_of(crate.folder)
    edits = [Edit(it, crate.folder) for it in edits_of(crate.folder)]
    found = verdicts(rt, crate, edits, is_each)
    lines = [f"{crate.name}/{name}: {said.split(f'{name}.edit: ')[-1]}" for name, _, said in found]
    is_well = all(refused for _, refused, _ in found)
    if is_well and sum_of(crate.folder) == were:
        write_tried(crate.folder, were)
    alone = sum("at once" not in said for _, _, said in found)
    lines.append(f"== {crate.name}: {len(found)} edits, {alone} of them by themselves, {time.time() - began:.0f} s; {'all refused' if is_well else 'NOT all refused'}")
    print("\n".join(lines), flush=True)
    return is_well, [f"{crate.name}/{name}" for name, _, said in found if ONLY_NAMES in said]


def try_all(names, is_each):
    rt = toolchain()
    os.environ.pop(rt.rtlib.ALLOW_C, None)
    rt.rtlib.guarded()
    keep_sums(rt.rtlib.Crate)
    os.chdir(TOP)
    crates = [it for it in rt.rtlib.crates_below(TOP) if it.name in names]
    below = {it.name: it for crate in crates for it in crate.below()}
    _held = rt.rtlib.lock([*below.values(), *[it for it in crates if it.name not in below]])

    def task(crate, call, otherwise):
        waits = [(it.name, "proof") for it in crate.below()]
        return waits, crate.count(rb"\n"), rt.need(crate), lambda given, jobs: call(crate, jobs) if all(given[it] for it in waits) else otherwise

    tasks = {(it.name, "proof"): task(it, built, False) for it in below.values()}
    tasks.update({(it.name, "edits"): task(it, lambda crate, _: tried(rt, crate, is_each), (False, [])) for it in crates})
    given = rt.in_lanes(tasks)
    weak = [name for it in crates for name in given[it.name, "edits"][1]]
    if weak:
        print(f"refused {ONLY_NAMES} ({len(weak)}): {' '.join(weak)}")
    failed = [it.name for it in crates if not given[it.name, "edits"][0]]
    spent = resource.getrusage(resource.RUSAGE_CHILDREN)
    print(f"NOT all refused: {' '.join(failed)}" if failed else f"all edits of {len(crates)} crates are refused", end="; ")
    print(f"{(spent.ru_utime + spent.ru_stime) / 60:.1f} processor minutes")
    return 1 if failed else 0


def main(words):
    flags = [it for it in words if it.startswith("-")]
    names = [it for it in words if not it.startswith("-")]
    if flags == ["--fewer"] and names:
        sys.exit(1 if note_fewer(names) else 0)
    unknown = [it for it in names if not edits_of(f"{CRATES}/{it}")]
    if unknown:
        sys.exit(f"no edits: {' '.join(unknown)}")
    if flags == ["--stale"] and not names:
        found = stale()
        print("".join(f"{it}\n" for it in found), end="")
        sys.exit(1 if found else 0)
    if flags not in ([], ["--each"]) or flags and not names:
        sys.exit(__doc__)
    names = names or stale()
    sys.exit(try_all(names, bool(flags)) if names else 0)

