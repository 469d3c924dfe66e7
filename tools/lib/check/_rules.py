"""The rows of docs/formats that are examples: each is given to the program, and its answer is what the row says.

A row is an example by the heads of its columns. `Lines` has the lines of a Dockerfile, each in backticks, and `Give` what
they give; a column `Example` is one of lines too, which give what the first column names. Cases are set apart by `;`,
and what they give likewise, or all of them give the same. `FROM scratch` stands above lines that have no FROM.

In lines: what begins with `"` is a member of the bundle, and with `{` the bundle itself; members alone go with the lines
of the case before. `N times` before a text puts it N times after the one before. `⏎` is LF, and `⇥` a tab. Of what is
given: a code or a cause, perhaps with its line; a member of the configuration or of the graph, as it stands there; or
all files of the tree, each with its mode and owner or its text if they are told.
"""
import json
import os
import re
from typing import NamedTuple

from bundles import PLAIN, compact
from common import TOP
from runs import answered

PAGES = [f"docs/formats/{name}" for name in sorted(os.listdir(f"{TOP}/docs/formats"))]
SPAN = re.compile(r"(?<!`)(`+)(?!`)(.+?)(?<!`)\1(?!`)")
CELL_ENDS = re.compile(r"(?<!\\)\|")
CODE = re.compile(r"R\d\d|F\d|exit \d+")
TIMES = re.compile(r"([\d,]+) times? $")
META = re.compile(r"^ with (\d{4}) and (\d+):(\d+)")
LINE = re.compile(r"^ at line (\d+)")
# what the examples are given, as the pages say
CONTEXT = {"/a/f1": "1", "/b/g": "2", "/f": "3", "/g": "4"}
FORGOTTEN = {"Shell": ["/bin/bash", "-c"], "OnBuild": ["RUN x"], "Healthcheck": {"Test": ["NONE"]}}
IMAGES = {
    "img": {"config": {**PLAIN, "config": {"Env": ["i=image"], "Cmd": ["x"]}}, "tree": [{"path": "/i", "text": "i"}]},
    "base": {"config": {**PLAIN, "config": FORGOTTEN}, "tree": []},
}


class Table(NamedTuple):
    """A table of a page: the number of the line of its heads, the heads, and the rows with the number of each one's line."""

    at: int
    heads: list
    rows: list


def cells_of(line):
    return [cell.strip().replace("\\|", "|") for cell in CELL_ENDS.split(line.strip()[1:-1])]


def tables_of(page):
    """The tables of a page; what stands in fences is none."""
    found, fenced, table = [], False, None
    with open(f"{TOP}/{page}", encoding="utf-8") as it:
        for number, line in enumerate(it, 1):
            fenced ^= line.startswith("```")
            if fenced or not line.startswith("|"):
                table = None
            elif table is None:
                table = Table(number, cells_of(line), [])
                found.append(table)
            elif not re.fullmatch(r"[|\- ]+", line.strip()):
                table.rows.append((number, cells_of(line)))
    return found


def inner(text):
    """What a span in backticks says: a blank on either side goes, where there is one on both."""
    bare = text[1:-1] if len(text) > 2 and text[0] == text[-1] == " " and text.strip() else text
    return bare.replace("⏎", "\n").replace("⇥", "\t")


def spans(cell):
    """The texts in backticks, each with what stands before and after it."""
    found = [*SPAN.finditer(cell)]
    ends = [0, *(it.end() for it in found)]
    begins = [*(it.start() for it in found), len(cell)]
    return [(cell[ends[i] : begins[i]], inner(it[2]), cell[ends[i + 1] : begins[i + 1]]) for i, it in enumerate(found)]


def parts(cell):
    """The parts of a cell that `;` sets apart, outside of backticks."""
    found, begun = [], 0
    hidden = SPAN.sub(lambda it: "x" * len(it[0]), cell)
    for place, letter in enumerate(hidden):
        if letter == ";":
            found.append(cell[begun:place])
            begun = place + 1
    return [*found, cell[begun:]]


def given_of(cell, lines_before=()):
    """The bundle of a case and its lines, or nothing where a cell has none."""
    lines, members = [], {}
    for before, text, _ in spans(cell):
        times = TIMES.search(before)
        if text.startswith("{"):
            return text, lines
        if text.startswith('"'):
            members.update(json.loads("{" + text + "}"))
        elif times:
            lines[-1] += int(times[1].replace(",", "")) * text
        else:
            lines.append(text)
    if not lines and not members:
        return None
    lines = lines or [*lines_before]
    if not any(line.upper().startswith("FROM") for line in lines):
        lines.insert(0, "FROM scratch")
    context = [{"path": path, "text": text} for path, text in CONTEXT.items()]
    whole = {"dockerfile": {"text": "".join(line + "\n" for line in lines)}, "context": context, "images": IMAGES, **members}
    return json.dumps(whole), lines


def is_meta(text, entry):
    meta = META.match(text)
    return meta is None or (entry["mode"], entry["uid"], entry["gid"]) == (meta[1], int(meta[2]), int(meta[3]))


def said_text(after, following):
    """The text of a file that is told behind its path, if it is."""
    if not after.endswith(" with ") or not following:
        return None
    _, text, rest = following[0]
    return text + ("\n" if rest.startswith(" and LF") else "")


class Judge:
    """What is found wrong with the examples, by one program."""

    def __init__(self, program):
        self.program, self.wrong, self.run = program, [], 0

    def answer(self, bundle, *words):
        return answered(self.program, list(words), bundle.encode()).stdout.decode()

    def fault(self, page, number, why):
        self.wrong.append(f"{page}:{number}: {why}")

    def case(self, bundle, says):
        """What is wrong with what a bundle is said to give."""
        self.run += 1
        told = spans(says)
        answer = json.loads(self.answer(bundle, "build"))
        if not told:
            return None if "accepted" in says and answer["result"] != "refused" else f"the program answers {shown(answer)}"
        first, after = told[0][1], told[0][2]
        if CODE.fullmatch(first):
            return self.refusal(answer, first, after, told[1:])
        if first.startswith('"'):
            texts = self.answer(bundle, "config") + self.answer(bundle, "graph")
            lacking = [text for _, text, _ in told if text.startswith('"') and text not in texts]
            return f"the program doesn't write {lacking[0]}, but\n{texts}" if lacking else None
        return self.tree(answer, told)

    def refusal(self, answer, code, after, following):
        at = LINE.match(after)
        text = None
        if code == "R21" and after.startswith(" with"):
            text = following[0][1] if following and after == " with " else ""
        found = answer.get("code", answer.get("cause"))
        is_so = found == code and (at is None or answer["line"] == int(at[1])) and (text is None or answer.get("text") == text)
        return None if is_so else f"the program answers {shown(answer)}"

    def tree(self, answer, told):
        if answer["result"] != "built":
            return f"the program answers {shown(answer)}"
        there = {entry["path"]: entry for entry in answer["tree"]}
        named = set()
        for place, (_, path, after) in enumerate(told):
            if path.startswith("/"):
                named.add(path)
                text = said_text(after, told[place + 1 :])
                entry = there.get(path)
                if entry is None or not is_meta(after, entry) or text is not None and entry.get("hex") != text.encode().hex():
                    return f"{path} isn't so in {shown(answer)}"
        unnamed = [path for path, entry in there.items() if "hex" in entry and path not in named]
        return f"{unnamed[0]} is there too" if unnamed else None

    # ---- tables ------------------------------------------------------------------------------------
    def lines_table(self, page, table, lines, gives):
        for number, cells in table.rows:
            cases, before = [], ()
            for part in parts(cells[lines]):
                given = given_of(part, before)
                if given is not None:
                    cases.append(given[0])
                    before = given[1]
            results = parts(cells[gives])
            if len(results) != len(cases):
                results = [cells[gives]] * len(cases)
            if not cases:
                self.fault(page, number, "the row has no example")
            for bundle, says in zip(cases, results):
                why = self.case(bundle, says)
                if why:
                    self.fault(page, number, f"{bundle[:300]}: {why}")

    def values_table(self, page, table):
        """Forms of expansion, under `v` set, empty and unset."""
        for number, cells in table.rows:
            form = spans(cells[0])[0][1]
            for sets, says in zip(["ENV v=1", "ENV v=", "ENV x="], cells[1:]):
                told = [text for _, text, _ in spans(says)]
                line = f"`{sets}`, `ENV r={form}`"
                wanted = f"`R21` with `{told[1]}`" if told[:1] == ["R21"] else f'`"r={told[0] if told else ""}"`'
                why = self.case(given_of(line)[0], wanted)
                if why:
                    self.fault(page, number, f"{line}: {why}")

    def kept(self, lines, path):
        """Whether an ignore file of these lines keeps a path, and which words say so."""
        self.run += 1
        bundle = compact({"dockerfile": {"text": "FROM scratch\n"}, "context": [{"path": "/.dockerignore", "text": "\n".join(lines)}]})
        return self.answer(bundle, "why", "--", path).split("\t")[0]

    def ignore_table(self, page, table):
        """What becomes of the paths in the heads under the lines of each row."""
        for number, cells in table.rows:
            lines = [text for _, text, _ in spans(cells[0])]
            for head, says in zip(table.heads[1:], cells[1:]):
                path = spans(head)[0][1]
                found = self.kept(lines, path)
                if found != {"out": "left out"}.get(says, says):
                    self.fault(page, number, f"{path} is {found}")

    def takes_table(self, page, table):
        """What a line of an ignore file takes: the paths in the second cell, and not those behind `not`."""
        for number, cells in table.rows:
            for _, line, _ in spans(cells[0]):
                for before, path, _ in spans(cells[1]):
                    if not path.startswith("/") or path == "/":
                        continue
                    found = self.kept([line], path)
                    if found != ("kept" if before.rstrip().endswith("not") else "left out"):
                        self.fault(page, number, f"{line}: {path} is {found}")

    def pattern_table(self, page, table):
        """Which names a pattern matches, and which not."""
        for number, cells in table.rows:
            (_, pattern, _), *names = spans(cells[2])
            context = [{"path": f"/{name}", "text": ""} for _, name, _ in names]
            bundle = compact({"dockerfile": {"text": f'FROM scratch\nCOPY ["{pattern}", "/o/"]\n'.replace("\\", "\\\\")}, "context": context})
            wanted = {f"/o/{name}" for before, name, _ in names if not before.rstrip().endswith("not")}
            found = {entry["path"] for entry in json.loads(self.answer(bundle, "build"))["tree"] if "hex" in entry}
            self.run += 1
            if found != wanted:
                self.fault(page, number, f"{pattern} matches {sorted(found)}")

    def path_table(self, page, table):
        """The path that a text is read as, against a base."""
        for number, cells in table.rows:
            if not spans(cells[0]):
                continue
            text, base, path = ((spans(cell) or [("", "/", "")])[0][1] for cell in cells)
            why = self.case(given_of(f"`WORKDIR {base}`, `WORKDIR {text}`")[0], f'`"WorkingDir":"{path}"`')
            if why:
                self.fault(page, number, why)

    def page(self, page):
        special = {
            "`v` is `1`": self.values_table,
            "`a.md`": self.ignore_table,
            "Takes": self.takes_table,
            "Matches": self.pattern_table,
            "Base": self.path_table,
        }
        for table in tables_of(page):
            heads = table.heads
            if "Lines" in heads and "Give" in heads:
                self.lines_table(page, table, heads.index("Lines"), heads.index("Give"))
            elif "Example" in heads and heads[0] in ("Code", "Cause"):
                self.lines_table(page, table, heads.index("Example"), 0)
            else:
                for head in heads[1:2]:
                    if head in special:
                        special[head](page, table)


def shown(answer):
    text = compact(answer)
    return text if len(text) < 400 else text[:400] + ".."


def check(program):
    """What is wrong with the examples of all pages, and how many were run."""
    judge = Judge(program)
    for page in PAGES:
        judge.page(page)
    return judge.wrong, judge.run
