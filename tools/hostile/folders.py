"""Folders for `pack` that tools/hostile makes, the words that they are packed by, and what comes of it by docs/FORMATS.md."""
import json
import os
import random
import shutil
import stat

import inputs
from bundles import compact, in_order

NAMES = [b"a", b"b", b"d", b"f.md", b".hidden", b"a b", b"*", b"[x]", b"\\", b"-x", b"#", b"!n", b"\xc3\xa9", b"\xe6\x97\xa5", b"\n", b"\t", b"\x01", b'"', b"$a", b"Dockerfile", b"Other", b"n" * 255,
         b"~", b"\x7f", b"\xef\xbb\xbf", b"\xc2\xa0", b"\xff", b"\xed\xa0\x80"]
CONTENTS = [b"", b"x", b"\x00\xff", b"\r\n", b"\xed\xa0\x80", b"hi\n" * 2000]


class Folder:
    """A folder of this number below `at`, and the words that pack it."""

    def __init__(self, at, seed, number, seeds):
        self.dice = random.Random(f"folder {seed} {number}")
        self.at = os.path.join(os.fsencode(at), b"packed")
        shutil.rmtree(self.at, ignore_errors=True)
        for name in ("other", "other.dockerignore", "written", "written.part", "by_link"):
            if os.path.lexists(os.path.join(at, name)):
                os.remove(os.path.join(at, name))
        os.mkdir(self.at)
        self.fill(seeds)
        self.choose_words(os.fsencode(at), seeds)

    def fill(self, seeds):
        folders = [self.at]
        for _ in range(self.dice.choice([0, 1, 3, 8, 20])):
            into = self.dice.choice(folders)
            name = self.dice.choice(NAMES[: len(NAMES) if self.dice.random() < 0.02 else -2])
            path = os.path.join(into, name)
            if not os.path.lexists(path):
                self.make(path, folders)
        if self.dice.random() < 0.05:
            self.make_deep(self.dice.choice([62, 63, 64, 65]))
        if self.dice.random() < 0.7:
            self.write(os.path.join(self.at, b".dockerignore"), inputs.ignore_file(self.dice, seeds)[1][1].encode("utf-8", "replace"))
        self.make_dockerfile(seeds)

    def make(self, path, folders):
        kind = self.dice.random()
        if kind < 0.35:
            os.mkdir(path)
            folders.append(path)
        elif kind < 0.97:
            self.write(path, self.dice.choice(CONTENTS))
        elif kind < 0.99:
            os.symlink(self.dice.choice([b"a", b".", b"/", b"nothing"]), path)
        else:
            os.mkfifo(path)

    def write(self, path, what):
        with open(path, "wb") as it:
            it.write(what)

    def make_deep(self, depth):
        path = self.at
        for _ in range(depth):
            path = os.path.join(path, b"p")
            if not os.path.lexists(path):
                os.mkdir(path)
            elif not stat.S_ISDIR(os.lstat(path).st_mode):
                return

    def make_dockerfile(self, seeds):
        path = os.path.join(self.at, b"Dockerfile")
        if os.path.lexists(path) or self.dice.random() < 0.05:
            return
        text = "FROM scratch\nCOPY . /\n"
        for _ in range(self.dice.choice([0, 0, 1, 3])):
            text = inputs.change_text(self.dice, seeds, text)
        if self.dice.random() < 0.02:
            os.symlink(b"nothing", path)
        else:
            self.write(path, text.encode("utf-8", "replace"))

    def choose_words(self, at, seeds):
        dice = self.dice
        self.file = self.target = self.output = None
        self.args = {}
        options = []
        if dice.random() < 0.2:
            self.file = dice.choice([os.path.join(at, b"other"), os.path.join(self.at, b"Other"), os.path.join(self.at, b"Dockerfile"), self.at])
            if dice.random() < 0.7 and not os.path.lexists(os.path.join(at, b"other")):
                self.write(os.path.join(at, b"other"), b"FROM scratch\nCOPY . /d/\n")
            if dice.random() < 0.5:
                self.write(os.path.join(at, b"other.dockerignore"), b"a\n**/*.md\n")
            options += [b"--file", self.file]
        if dice.random() < 0.2:
            self.target = odd_word(dice)
            options.append(b"--target=" + self.target)
        while dice.random() < 0.25:
            name, value = odd_word(dice).replace(b"=", b""), odd_word(dice)
            self.args[name] = value
            options.append(b"--build-arg=" + name + b"=" + value)
        if dice.random() < 0.1:
            self.output = os.path.join(at, b"written")
            options += [b"--output", self.output]
        self.words = [b"pack", *options, self.at] if dice.random() < 0.5 else [b"pack", self.at, *options]

    def is_text(self):
        """Whether all words of the command line are UTF-8; if not, it is a wrong one."""
        return all(is_utf8(word) for word in self.words)

    def right_end(self):
        """The status that is due without --apply-ignore, and the bundle if there is one."""
        if not self.is_text():
            return 2, None
        if not self.has_dockerfile():
            return 2, None
        if not is_packable(self.at, 0) or not self.can_place_ignore_file():
            return 3, None
        given = {name.decode(): value.decode() for name, value in self.args.items()}
        return 0, self.with_own_ignore_file(inputs.packed(self.at, self.file, given, None if self.target is None else self.target.decode()))

    def has_dockerfile(self):
        if self.file is not None:
            return os.path.isfile(self.file)
        path = os.path.join(self.at, b"Dockerfile")
        return os.path.lexists(path) and stat.S_ISREG(os.lstat(path).st_mode)

    def own_ignore_file(self):
        path = None if self.file is None else self.file + b".dockerignore"
        return path if path and os.path.isfile(path) else None

    def can_place_ignore_file(self):
        return not (self.own_ignore_file() and os.path.isdir(os.path.join(self.at, b".dockerignore")))

    def with_own_ignore_file(self, bundle):
        """The bundle with the bytes of the Dockerfile's own ignore file at /.dockerignore."""
        path = self.own_ignore_file()
        if path is None:
            return bundle
        value = json.loads(bundle)
        with open(path, "rb") as it:
            own = {"gid": 0, "hex": it.read().hex(), "mode": "0644", "path": "/.dockerignore", "uid": 0}
        rest = [entry for entry in value["context"] if entry["path"] != "/.dockerignore"]
        value["context"] = [rest[0], *in_order([own, *rest[1:]])]
        return compact(value).encode() + b"\n"


def odd_word(dice):
    word = b"".join(dice.choice([b"a", b"b", b"V", b"1", b"s", b" ", b"-", b"\n", b"\x01", b'"', b"\\", b"$", b"\xc3\xa9", b"\xf0\x9f\x98\x80"]) for _ in range(dice.randrange(5)))
    return word + b"\xff" if dice.random() < 0.02 else word


def is_utf8(word):
    try:
        word.decode()
        return True
    except UnicodeDecodeError:
        return False


def is_packable(folder, depth):
    """Whether there are only files and folders below, with names in UTF-8, at most 64 components deep."""
    for name in os.listdir(folder):
        at = os.path.join(folder, name)
        mode = os.lstat(at).st_mode
        if depth == 64 or not is_utf8(name) or not (stat.S_ISREG(mode) or stat.S_ISDIR(mode)):
            return False
        if stat.S_ISDIR(mode) and not is_packable(at, depth + 1):
            return False
    return True
