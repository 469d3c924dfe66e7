"""Makes the table of crates in docs/ARCHITECTURE.md: what each one is, as the first comment of its sources says.

    tools/docs crates            writes the table where it stands
    tools/docs crates --check    ends with 1 if the table isn't the one that would be written, or a crate's comment lacks
                                 its first sentence or names a central definition that the crate hasn't

A crate's row has the first sentence of its comment, and the definitions that the comment calls central. Subjects are the
headings of crates.txt.
"""
import functools
import os
import re
import sys

from common import CRATES, TOP

PAGE = f"{TOP}/docs/ARCHITECTURE.md"
BEGIN, END = "<!-- tools/docs crates -->\n", "<!-- the end of what it makes -->\n"
SENTENCE = re.compile(r"(.*?[.])(?= [A-Z`]|$)")
CENTRAL = re.compile(r"(?:The|Its) central definitions? .*?[.](?= [A-Z`]|$)")
NAME = re.compile(r"`([A-Za-z_]\w*)`")


def subjects():
    """The headings of crates.txt, each with its crates: the lowest first."""
    found = []
    with open(f"{TOP}/crates.txt", encoding="utf-8") as it:
        for line in it.read().split("\n\n", 1)[1].splitlines():
            if line.startswith("# "):
                found.append((line[2:], []))
            elif ":" in line:
                found[-1][1].append(line.partition(":")[0])
    return found


def head_of(crate):
    """The paragraphs of the comment with which a crate begins."""
    folder = f"{CRATES}/{crate}/src"
    path = next(it for it in (f"{folder}/lib.rt", f"{folder}/main.rt") if os.path.exists(it))
    lines = []
    with open(path, encoding="utf-8") as it:
        for line in it:
            if not line.startswith("//"):
                break
            lines.append(line[2:].strip())
    return [" ".join(part.split("\n")) for part in "\n".join(lines).split("\n\n")]


@functools.cache
def texts_of(crate, folder):
    """All that stands in the files of a crate's folder."""
    at = f"{CRATES}/{crate}/{folder}"
    texts = []
    for base in sorted(os.listdir(at)) if os.path.isdir(at) else []:
        if os.path.isfile(f"{at}/{base}"):
            with open(f"{at}/{base}", encoding="utf-8") as it:
                texts.append(it.read())
    return "\n".join(texts)


def is_declared(crate, name):
    """Whether specs/ of a crate declares a name."""
    return re.search(rf"^\s*(?:abbrev |unfoldable )?pub (?:record |data )?{name}\b", texts_of(crate, "specs"), re.M) is not None


def is_known(crate, name):
    """Whether a name is a crate's, or stands in the code of this one."""
    code = re.sub(r"^//.*$", "", texts_of(crate, "src"), flags=re.M)
    return os.path.isdir(f"{CRATES}/{name}") or re.search(rf"\b{name}\b", code) is not None


def faults_of(crate, head, central):
    if not SENTENCE.match(head[0]):
        yield f"crates/{crate}: its first comment has no sentence"
    lost = [name for name in central if not is_declared(crate, name) and not is_known(crate, name)]
    yield from (f"crates/{crate}: its first comment names {name}, and the crate hasn't it" for name in lost)


def table():
    """The table, and what is wrong with the comments that it is made of."""
    rows, wrong = ["| Crate | Is | Its central definitions |", "|---|---|---|"], []
    for subject, crates in reversed(subjects()):
        rows.append(f"| **{subject}** | | |")
        for crate in reversed(crates):
            head = head_of(crate)
            said = [found[0] for part in head for found in CENTRAL.finditer(part)]
            central = [name for name in dict.fromkeys(NAME.findall(" ".join(said))) if is_declared(crate, name)]
            wrong += faults_of(crate, head, NAME.findall(" ".join(said)))
            sentence = SENTENCE.match(head[0])
            cells = [f"`{crate}`", (sentence[1] if sentence else head[0]).rstrip("."), ", ".join(f"`{name}`" for name in central)]
            rows.append(re.sub(" +", " ", f"| {' | '.join(cells)} |"))
    return "\n".join(rows) + "\n", wrong


def main(words):
    if words not in ([], ["--check"]):
        sys.exit(__doc__)
    with open(PAGE, encoding="utf-8") as it:
        text = it.read()
    before, _, rest = text.partition(BEGIN)
    there, _, after = rest.partition(END)
    made, wrong = table()
    if not words:
        with open(PAGE, "w", encoding="utf-8") as it:
            it.write(before + BEGIN + "\n" + made + "\n" + END + after)
    elif there.strip() + "\n" != made:
        wrong.append("docs/ARCHITECTURE.md: the table of crates isn't that of their first comments; tools/docs crates writes it")
    print("\n".join(wrong) if wrong else f"{made.count(chr(10) + '| `')} crates, each with what its first comment says")
    return 1 if wrong else 0
