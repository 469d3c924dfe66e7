"""The commands of the pages: each block of them is run, and what it prints is what the page says.

A block `console` has commands, each after `$ `, and below each one what it prints; a line `...` there stands for any
lines. A block `sh` has commands whose output the page doesn't say; they have to end well. What names `./run` or
`examples/` runs where a copy of `examples/` is, any other block `console` in an empty folder, and `sh` in one with a
Dockerfile, beside a bundle. A command `cd` holds for the rest of its block. A block `dockerfile` right before one is the
file `Dockerfile` there. `./run` and `dfsolve` are the program that is tried; `buildctl` and `dot` read what they are
given and do nothing.
"""
import itertools
import os
import re
import shutil
import subprocess
import tempfile
from typing import NamedTuple

from check import _teams
from common import TOP
from docs.manual import commands as program_commands

FENCE = re.compile(r"^```(\S*)$")
PROMPT = "$ "
LINES_LEFT_OUT = "...\n"
# blocks that aren't run, by the page and a word of the block, and why
NOT_RUN = {
    ("docs/BUILDKIT.md", "docker image inspect"): "it needs a daemon with an image",
    ("docs/BUILDKIT.md", "--daemon engine"): "it starts a daemon, of packages that it downloads",
    ("docs/BUILDKIT.md", "BUILDKIT_SYNTAX"): "it needs a daemon and a registry",
    ("docs/BUILDKIT.md", "frontend push"): "it needs a registry, and packages that it downloads",
    ("docs/BUILDKIT.md", "--oci-layout"): "it needs a daemon, and packages that are downloaded",
}
STUBS = {
    "dot": "cat >/dev/null",
    # a definition is a message whose first field is a list of bytes
    "buildctl": 'test "$(head -c 1 | od -An -tx1)" = " 0a" && cat >/dev/null',
}
CALLED = re.compile(r"(?:\bdfsolve|\./run(?: --proved)?|\$DFSOLVE/run) ([a-z]+)((?: +[^|`;&()<>\n]+)?)")
OPTION = re.compile(r"(?<=\s)--[a-z][a-z-]*")
NAMED = re.compile(r"`(?:dfsolve|\./run(?: --proved)?) ([a-z]+)")


class Block(NamedTuple):
    """A block of a page: the number of its first line, its language, its text, and the language and text of the one right before."""

    at: int
    kind: str
    text: str
    before: tuple


def pages():
    """The pages whose blocks are run, by their paths."""
    yield "README.md"
    for part in ("docs", "examples"):
        for folder, _, names in sorted(os.walk(f"{TOP}/{part}")):
            yield from sorted(os.path.relpath(f"{folder}/{name}", TOP) for name in names if name == "README.md" or part == "docs" and name.endswith(".md"))


def blocks_of(page):
    found, begun, before = [], None, ("", "")
    with open(f"{TOP}/{page}", encoding="utf-8") as it:
        for number, line in enumerate(it, 1):
            fence = FENCE.match(line.rstrip("\n"))
            if fence and begun is None:
                begun, kind, lines = number + 1, fence[1], []
            elif fence:
                text = "".join(lines)
                found.append(Block(begun, kind, text, before))
                begun, before = None, (kind, text)
            elif begun is not None:
                lines.append(line)
            elif line.startswith("#"):
                before = ("", "")
    return found


def commands_of(block):
    """The commands of a block, each with what it prints, or nothing where the page doesn't say."""
    if block.kind == "sh":
        return [(block.text, None)]
    found = []
    for line in block.text.splitlines(keepends=True):
        if line.startswith(PROMPT):
            found.append((line[len(PROMPT) :], ""))
        elif found:
            found[-1] = (found[-1][0], found[-1][1] + line)
    return found


class Place:
    """Folders in which blocks are run, and the environment with which."""

    def __init__(self, folder, program):
        self.folder, self.count = folder, itertools.count()
        self.top = f"{folder}/top"
        for it in (self.top, f"{folder}/bin"):
            os.mkdir(it)
        started = f'#!/bin/sh\nif [ "${{1-}}" = --proved ]; then shift; fi\nexec "{os.path.abspath(program)}" "$@"\n'
        for name, text in {"dfsolve": started, **{name: f"#!/bin/sh\n{text}\n" for name, text in STUBS.items()}}.items():
            put(f"{folder}/bin/{name}", text)
        put(f"{self.top}/run", started)
        shutil.copytree(f"{TOP}/examples", f"{self.top}/examples", symlinks=True)
        _teams.fill(f"{self.top}/examples/teams")
        self.environment = {**os.environ, "PATH": f"{folder}/bin:{os.environ['PATH']}", "DFSOLVE": self.top, "LC_ALL": "C"}

    def run(self, block):
        """What each command of a block printed, with what it should have, and its status."""
        at = self.top if re.search(r"\./run|\bexamples/", block.text) else f"{self.folder}/{next(self.count)}/folder"
        os.makedirs(at, exist_ok=True)
        dockerfile = block.before[1] if block.before[0] == "dockerfile" else "FROM scratch\n" if block.kind == "sh" else None
        if dockerfile is not None and at != self.top:
            put(f"{at}/Dockerfile", dockerfile, 0o644)
            put(f"{at}/../bundle.json", '{"dockerfile":{"text":"FROM scratch"}}', 0o644)
        strict = ["-e", "-o", "pipefail"] if block.kind == "sh" else []
        for command, wanted in commands_of(block):
            if wanted is not None and command.startswith("cd "):
                at = os.path.join(at, command[len("cd ") :].strip())
                continue
            ran = subprocess.run(
                ["bash", *strict, "-c", command],
                cwd=at,
                env=self.environment,
                stdin=subprocess.DEVNULL,
                stdout=subprocess.PIPE,
                stderr=subprocess.STDOUT,
                check=False,
            )
            yield command, wanted, ran.stdout.decode(errors="replace"), ran.returncode


def is_said(printed, wanted):
    """Whether this was printed."""
    lines = ("(?:.*\n)*" if line == LINES_LEFT_OUT else re.escape(line) for line in wanted.splitlines(keepends=True))
    return re.fullmatch("".join(lines), printed) is not None


def put(path, text, mode=0o755):
    with open(path, "w", encoding="utf-8") as it:
        it.write(text)
    os.chmod(path, mode)


def wrong_options(page, known):
    """The commands and options of the program that a page names and its help doesn't."""
    with open(f"{TOP}/{page}", encoding="utf-8") as it:
        text = it.read()
    for found in CALLED.finditer(text):
        line = text.count("\n", 0, found.start()) + 1
        name = found[1]
        if name in known:
            yield from (f"{page}:{line}: {name} has no option {it}" for it in OPTION.findall(found[2]) if it not in known[name])
    for found in NAMED.finditer(text):
        if found[1] not in known and found[1] != "install":
            yield f"{page}:{text.count(chr(10), 0, found.start()) + 1}: there is no command {found[1]}"


def check(program):
    """What is wrong with the commands of all pages, and how many were run."""
    wrong, count = [], 0
    known = {it.name: {name for item in it.options for name in item.names} | {"--help"} for it in program_commands(program)[1]}
    left = dict(NOT_RUN)
    with tempfile.TemporaryDirectory() as folder:
        place = Place(folder, program)
        for page in pages():
            wrong += wrong_options(page, known)
            for block in blocks_of(page):
                if block.kind not in ("sh", "console"):
                    continue
                unrun = [key for key in NOT_RUN if key[0] == page and key[1] in block.text]
                if unrun:
                    left.pop(unrun[0], None)
                    continue
                for command, wanted, printed, status in place.run(block):
                    count += 1
                    if wanted is None and status != 0 or wanted is not None and not is_said(printed, wanted):
                        wrong.append(f"{page}:{block.at}: {command.strip()}\n    ends with {status} and prints\n{printed}")
    wrong += [f"{page} has no block with {word}, which isn't run" for page, word in left]
    return wrong, count
