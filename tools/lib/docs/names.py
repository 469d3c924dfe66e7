"""Lists names that more than one crate declares.

    tools/docs names              prints each such name with the places where it is declared, types first
    tools/docs names NAME..       prints where these names are declared

Looked at are types, traits and public functions of src/, and definitions of specs/. A name that is re-exported is
declared once and isn't listed. Two crates may well have a function `read` each; a type or a definition that stands
twice is worth a look. docs/WORDS.md says what each word of the house means.
"""
import glob
import os
import re

from common import CRATES, TOP
from docs.definitions import START

KINDS = [
    ("type", "rt", re.compile(r"^\s*pub (?:struct|enum|trait|type) (\w+)")),
    ("definition", "antt", START),
    ("function", "rt", re.compile(r"^pub (?:const )?fn (\w+)")),
]


def declared():
    found = {}
    for kind, ending, pattern in KINDS:
        folder = "src" if ending == "rt" else "specs"
        for path in sorted(glob.glob(f"{CRATES}/*/{folder}/**/*.{ending}", recursive=True)):
            crate = os.path.relpath(path, CRATES).split(os.sep)[0]
            if crate.endswith("_tests"):
                continue
            for number, line in enumerate(open(path, encoding="utf-8"), 1):
                match = pattern.match(line)
                if match:
                    place = f"{os.path.relpath(path, TOP)}:{number}"
                    found.setdefault((kind, match.group(1)), []).append((crate, place))
    return found


def main(words):
    found = declared()
    for (kind, name), places in sorted(found.items(), key=lambda it: ([k[0] for k in KINDS].index(it[0][0]), it[0][1])):
        crates = {crate for crate, _ in places}
        if (len(crates) > 1 and not words) or name in words:
            print(f"{kind} {name}: " + ", ".join(place for _, place in places))
