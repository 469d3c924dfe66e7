"""Finds tools, calls, files and sections that pages and comments name, and that aren't there.

    tools/check pages      prints each name that leads nowhere, with its place; ends with 1 if there is one

A tool is what is named in backticks, at the beginning of a line or after `$here/`; of one that has commands the command
has to be there too, and its file has to know the options. A link of a page leads to a file of the repository, or to a
section of a page by its heading. In backticks on a page, a name with `_`, `::` or a capital within has to be a word of
the sources, a file's name the end of a file's path, and a command of `rt` one that it lists; a file after a name declares
that name. A page of docs/formats begins with links to its sections. CHANGELOG may name what is no more.
"""
import functools
import os
import re
import shutil
import subprocess

from common import LIB, TOP, commands

NAMED = re.compile(r'(?:`|^[\s#/!-]*|\$\(|\$here/|"\$here/)tools/([\w./-]*\w)"?(?: ([a-z-][a-z-]*))?', re.M)
LINK = re.compile(r"\]\(([^)\s]+)\)")
HEADING = re.compile(r"^#+ (.*)$", re.M)
LEFT_OUT = {".git", "out", "target", "__pycache__"}
ENDINGS = (".md", ".rt", ".antt", ".py", ".sh", ".rs", ".go")
WITH_COMMANDS = {tool: commands(tool) for tool in os.listdir(LIB) if os.path.isfile(f"{LIB}/{tool}/__init__.py")}
FENCED = re.compile(r"^```.*?^```$", re.M | re.S)
SPAN = re.compile(r"(?<!`)`(?!`)([^`\n]+)`")
CALL = re.compile(r"(?=\w*_|\w+::|\w*[a-z][A-Z])[A-Za-z_]\w*(?:::\w+)*")
FILE = re.compile(r"(?:[\w+-]+/)*[\w+-]+\.(?:rt|antt|edit)")
RT = re.compile(r"rt ([a-z-]+)(?: [^ ]+)*")
CALLED = re.compile(r"\btools/([\w/-]*\w)((?: +[^\s`|&;<>()]+)+)")
DECLARED = re.compile(r"`(\w+)`(?:\*\*,| \() ?`(crates/[\w/]+\.(?:antt|rt))`")
# names of others, and forms of names
NOT_OURS = {"FollowLinks", "OnBuild", "node_modules", "try_collect", "Arc::ptr_eq", "MOST_X", "most_x", "proofs/laws/NAME/Answers.antt"}


def texts():
    """The pages, sources and scripts, by their paths."""
    for folder, folders, names in os.walk(TOP):
        folders[:] = sorted(set(folders) - LEFT_OUT)
        for name in sorted(names):
            path = os.path.relpath(f"{folder}/{name}", TOP)
            is_script = path in ("run", ".ci/run") or path.startswith("tools/") and "." not in name
            if path.endswith(ENDINGS) or is_script:
                with open(f"{TOP}/{path}", encoding="utf-8") as it:
                    yield path, it.read()


def wrong_tools(text):
    """The tools and commands that a text names and that aren't there, each with the place in the text."""
    for found in NAMED.finditer(text):
        tool, command = found.groups()
        if not os.path.exists(f"{TOP}/tools/{tool}"):
            yield found.start(1), f"there is no tools/{tool}"
        elif command and command not in WITH_COMMANDS.get(tool, [command]) and not command.startswith("-"):
            yield found.start(1), f"tools/{tool} has no command {command}"
        elif command and command.startswith("-") and os.path.isdir(f"{TOP}/tools/{tool}"):
            yield found.start(1), f"tools/{tool} is a folder, and what is called is tools/{tool}/run"


def prose(text):
    """A page without its blocks, each line where it stands."""
    return FENCED.sub(lambda it: "\n" * it[0].count("\n"), text)


class Sources:
    """The words of the sources, and the paths of all files."""

    def __init__(self, kept):
        with open(f"{TOP}/crates.txt", encoding="utf-8") as it:
            self.words = set(re.findall(r"^\w+", it.read(), re.M))
        for path, text in kept.items():
            if not path.endswith(".md"):
                self.words.update(re.findall(r"[A-Za-z_]\w*", text))
        self.paths = {"/" + os.path.relpath(f"{folder}/{name}", TOP) for folder, _, names in os.walk(f"{TOP}/crates") for name in names}

    def wrong_name(self, name):
        """Why a name in backticks leads nowhere, or nothing."""
        if name in NOT_OURS:
            return None
        if CALL.fullmatch(name):
            lost = [word for word in name.split("::") if word not in self.words]
            return f"no source has the name {lost[0]}" if lost else None
        if FILE.fullmatch(name):
            return None if any(path.endswith(f"/{name}") for path in self.paths) else f"no file is {name}"
        return wrong_command(name)

    def wrong_names(self, text):
        for found in SPAN.finditer(prose(text)):
            why = self.wrong_name(found[1])
            if why:
                yield found.start(1), why


def wrong_places(text):
    """The names that a page says to stand in a file, and that don't, each with the place in the text."""
    for found in DECLARED.finditer(text):
        name, path = found.groups()
        if os.path.exists(f"{TOP}/{path}") and not os.path.isdir(f"{TOP}/crates/{name}"):
            with open(f"{TOP}/{path}", encoding="utf-8") as it:
                if not re.search(rf"\b(?:pub|fn|struct|enum|trait|record|data|abbrev|unfoldable) (?:\w+ )*{name}\b", it.read()):
                    yield found.start(1), f"{path} doesn't declare {name}"


@functools.cache
def help_of_rt():
    """What `rt` prints of its commands, or nothing where there is no toolchain."""
    if not shutil.which("rt"):
        return None
    return subprocess.run(["rt"], stdout=subprocess.PIPE, stderr=subprocess.STDOUT, text=True, check=False).stdout


def wrong_command(name):
    """Why a command of `rt` in backticks isn't one, or nothing."""
    found = RT.fullmatch(name)
    if not found or help_of_rt() is None or re.search(rf"\b{found[1]}\b", help_of_rt()):
        return None
    return f"rt doesn't know {found[1]}"


@functools.cache
def text_of(tool, command):
    """The text of a tool's command, or of a tool without commands and of what stands beside it."""
    file = WITH_COMMANDS.get(tool, {}).get(command, f"{TOP}/tools/{tool}")
    folder = os.path.dirname(file)
    beside = [f"{folder}/{name}" for name in sorted(os.listdir(folder)) if name.endswith(".py")] if "/" in tool else []
    texts_there = []
    for path in [file, *beside]:
        if os.path.isfile(path):
            with open(path, encoding="utf-8") as it:
                texts_there.append(it.read())
    return "\n".join(texts_there)


def wrong_options(text):
    """The options that a page gives to a tool which doesn't know them, each with the place in the text."""
    for found in CALLED.finditer(text):
        tool, words = found[1], found[2].split()
        for option in (word.split("=")[0] for word in words if word.startswith("--")):
            if option != "--help" and option not in text_of(tool, words[0]):
                yield found.start(1), f"tools/{tool} doesn't know {option}"


def sections(text):
    """The names by which a page's headings are linked to."""
    return {re.sub(r"[^\w\- ]", "", heading.lower()).strip().replace(" ", "-") for heading in HEADING.findall(text)}


def wrong_contents(path, text):
    """The sections of a page of docs/formats to which its contents, before the first section, have no link."""
    if path.startswith("docs/formats/"):
        begin = text.index("\n## ")
        for found in re.finditer(r"^## .*$", text, re.M):
            (name,) = sections(found[0])
            if f"(#{name})" not in text[:begin]:
                yield found.start(), f"the page's contents lack {name}"


def wrong_links(path, text, pages):
    """The links of a page that lead nowhere, each with the place in the text."""
    for found in LINK.finditer(text):
        file, _, section = found[1].partition("#")
        to = os.path.normpath(os.path.join(os.path.dirname(path), file)) if file else path
        if re.match(r"\w+:", found[1]):
            continue
        if not os.path.exists(f"{TOP}/{to}"):
            yield found.start(1), f"there is no {to}"
        elif section and to in pages and section not in sections(pages[to]):
            yield found.start(1), f"{to} has no section {section}"


def main(_words):
    kept = dict(texts())
    pages = {path: text for path, text in kept.items() if path.endswith(".md")}
    sources = Sources(kept)
    wrong = 0
    for path, text in kept.items():
        found = [] if path == "CHANGELOG.md" else [*wrong_tools(text)]
        if path in pages:
            found += [*wrong_links(path, text, pages), *wrong_contents(path, text)]
            found += [*wrong_options(text), *wrong_places(text)] if path != "CHANGELOG.md" else []
            found += sources.wrong_names(text) if path != "CHANGELOG.md" else []
        for place, why in found:
            wrong += 1
            print(f"{path}:{text.count(chr(10), 0, place) + 1}: {why}")
    lines = sum(text.count("\n") for text in pages.values())
    print(f"{len(kept)} files, {lines} lines of pages, {wrong} names lead nowhere")
    return 1 if wrong else 0
