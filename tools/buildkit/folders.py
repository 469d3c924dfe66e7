"""Random folders for tools/buildkit, each with an ignore file and a Dockerfile that copies all. A folder is a function of the seed and its number alone."""
import json
import os
import random

DOCKERFILE = "FROM scratch\nCOPY . /\n"
PLAIN = ["a", "b", "c", "d", "f", "ab", "a.md", "b.md", "README.md", "x.txt"]
ODD = [" a", "a ", " ", "a b", ".a", ".hid", "..a", "...", "*", "**", "a*", "a**b", "?", "q?", "[", "]", "[x]", "[a-c]", "[ ]", "!", "!n", "!!",
       "\\", "d\\e", "\\*", "a\\", "#", "#h", "^", "^k", "[^a]", "-", "a-b", "(x)", "a|b", "|", "{a}", "a{2}", "+", "a+", "$", "$v", "a.b", "~", "'", '"', 'a"b', "`", "&", "<", ",", "=", ":", "%41", "n" * 255]
# characters that no header carries
FOREIGN = ["é", "日本", "\u212a", "\U0001f600", "\x7f", "a\tb", "\xa0", "\ufeffa"]
SIGNS = list(" !\"#$%&'()*+,-.0:;<=>?@AZ[\\]^_`az{|}~")
HELD = ["", "x", "hi\n", "1" * 5000]


class Folder:
    """The paths of a folder, each with its text or none for a folder in it, and its ignore file."""

    def __init__(self, seed, number):
        self.dice = random.Random(f"folder {seed} {number}")
        self.paths = {}
        self.names = self.choose_names()
        for _ in range(self.dice.choice([0, 3, 8, 16, 30])):
            self.add()
        self.ignore = "\n".join(self.line(count) for count in range(self.dice.choice([1, 2, 4, 8, 16]))) + self.dice.choice(["", "\n", "\r\n"])
        if self.dice.random() < 0.03:
            self.ignore = ""
        self.paths["/.dockerignore"], self.paths["/Dockerfile"] = self.ignore, DOCKERFILE

    def choose_names(self):
        """The names of this folder: most folders have few signs, so that patterns take something."""
        dice = self.dice
        names = PLAIN + dice.choice([[], ODD, ODD, ODD * 3])
        names += ["".join(dice.choice(SIGNS) for _ in range(dice.randrange(1, 5))) for _ in range(dice.choice([0, 0, 10]))]
        names += dice.choice([[], [], [], FOREIGN])
        return [name for name in names if name not in (".", "..")]

    def add(self):
        """Adds a path in a folder that is there."""
        folders = ["", *(path for path, held in self.paths.items() if held is None)]
        path = self.dice.choice(folders) + "/" + self.dice.choice(self.names)
        if path not in self.paths and path.count("/") <= 6:
            self.paths[path] = None if self.dice.random() < 0.4 else self.dice.choice(HELD)

    def line(self, count):
        """A line after so many others: an exception is one from something."""
        dice = self.dice
        kind = dice.random()
        if kind < 0.05:
            return dice.choice(["", " ", "# a", " # a", "#", "/", ".", "!/"])
        if kind < 0.07:
            return dice.choice(["!", "[", "a[", "[]", "a\\", "[a-]", "b/[x", "\\"])
        text = self.pattern()
        text = dice.choice(["", "", "", "", "/", "./", " ", "\t", "**/", "*/"]) + text + dice.choice(["", "", "", "", "/", " ", "/**", "/*", "\r"])
        return "!" + text if dice.random() < 0.4 and count else text

    def pattern(self):
        """A path of the folder, or one like it, as it is or with signs in it."""
        dice = self.dice
        path = dice.choice([*self.paths, "/" + dice.choice(self.names)])[1:]
        kind = dice.random()
        if kind < 0.35:
            return exact(path)
        if kind < 0.45:
            return path
        if kind < 0.55:
            return dice.choice(["*", "**", "*.md", "*/*", "**/*.md", ".*", "?", "[!-~]*", "*/**/a", "**/[a-c]", "\\" + dice.choice(SIGNS)])
        return "/".join(self.component(name) for name in path.split("/"))

    def component(self, name):
        dice = self.dice
        at = dice.randrange(len(name) + 1)
        kind = dice.random()
        if kind < 0.5:
            return exact(name)
        if kind < 0.6:
            return dice.choice(["*", "**"])
        if kind < 0.7:
            return exact(name[:at]) + "*" + exact(name[dice.randrange(at, len(name) + 1):])
        if at == len(name):
            return exact(name) + "*"
        sign = dice.choice(["?", "[\\" + name[at] + "]", "[^\\~]", "[a-z]", "*"])
        return exact(name[:at]) + sign + exact(name[at + 1:])

    def like(self, path):
        """A path that differs a little from this one."""
        dice = self.dice
        at = dice.randrange(1, len(path) + 1)
        changed = path[:at] + dice.choice([*SIGNS, "", "", "/x"]) + path[at + dice.choice([0, 1, 1]):]
        return changed if all(name not in ("", ".", "..") for name in changed[1:].split("/")) else path + "x"

    def bundle(self):
        entries = [{"path": path, **({"dir": True} if held is None else {"text": held})} for path, held in self.paths.items()]
        return json.dumps({"context": entries, "dockerfile": {"text": self.paths["/Dockerfile"]}}).encode()

    def write(self, at):
        """Makes the folder, with the modes that a bundle has."""
        os.mkdir(at)
        for path in sorted(self.paths, key=lambda path: path.count("/")):
            if self.paths[path] is None:
                os.mkdir(at + path)
                os.chmod(at + path, 0o755)
            else:
                with open(at + path, "w", encoding="utf-8", newline="") as out:
                    out.write(self.paths[path])
                os.chmod(at + path, 0o644)
        os.chmod(at, 0o755)


class Chosen(Folder):
    """A folder whose ignore file is a list of its paths, each as it is."""

    def __init__(self, seed, number):
        super().__init__(seed, number)
        own = [path for path in self.paths if path not in ("/.dockerignore", "/Dockerfile")]
        # others have no pattern
        printable = [path for path in own if is_printable(path)]
        self.ignore = "".join(exact(path) + "\n" for path in self.dice.sample(printable, self.dice.randrange(len(printable) + 1)))
        self.paths["/.dockerignore"] = self.ignore


def exact(text):
    """A path or a piece of one as a line of an ignore file that takes it alone."""
    return "".join("[ ]" if c == " " else "\\" + c if c in "*?[]\\!#^-" else c for c in text)


def gaps(paths, kept):
    """The shortest of these paths that aren't among those kept."""
    def is_gap(path):
        above = path.rpartition("/")[0]
        return path not in kept and (above == "" or above in kept)

    return sorted(path for path in paths if is_gap(path))


def is_printable(path):
    """Whether a header carries a path."""
    return all(" " <= c <= "~" for c in path)


def is_at_or_below(path, place):
    return path == place or path.startswith(place + "/")
