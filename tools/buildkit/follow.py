"""What tools/buildkit --follow judges: which paths of its context a graph names (docs/FORMATS.md), how these are told, and what is sent of a folder for
them; and random folders whose Dockerfiles name some of their paths."""
import json
import re

import classes
import folders

SIGNS = "*?["


# ---- what is named ---------------------------------------------------------------------------------
def components_of(pattern):
    """A pattern's components, once it is cleaned."""
    found = []
    for component in pattern.split("/"):
        if component == "..":
            del found[-1:]
        elif component not in ("", "."):
            found.append(component)
    return found


def spelled(component):
    """The name that a component spells, or none if it has a sign."""
    pieces = re.findall(r"\\.|[^\\]", component, re.S)
    return None if any(piece in SIGNS for piece in pieces) else "".join(piece[-1] for piece in pieces)


def carried(names):
    """The path of names, up to the first that isn't carried."""
    path = ""
    for name in names:
        if not folders.is_printable(name):
            break
        path += "/" + name
    return path


def named_by(pattern):
    """What a source of a COPY names."""
    names = []
    for component in components_of(pattern):
        name = spelled(component)
        if name in (None, ".", ".."):
            break
        names.append(name)
    return carried(names)


def named_by_input(operation, number):
    if operation.get("action") == "copy" and number == 1:
        return [named_by(source["pattern"]) for source in operation["sources"] if "pattern" in source]
    if operation["op"] == "exec" and number:
        return [carried(components_of(operation["binds"][number - 1]["source"]))]
    return [""]


def named_of(graph):
    """The paths that a graph names of its context, in the order of its operations; none if nothing is told of them, since one is the root."""
    inputs = [(op, number) for op in graph["ops"] for number, given in enumerate(op["inputs"]) if given == classes.CONTEXT]
    paths = [path for op, number in inputs for path in named_by_input(op, number)]
    return [] if "" in paths else paths


def pattern_of(path):
    """How a path is told."""
    text = re.sub(r"([*?\[\]\\()+|{}^])", r"\\\1", path[1:])
    return re.sub("^ | $", "[ ]", "\\" + text if text.startswith("!") else text)


def wrong_of(graph, told, sent, kept):
    """What is wrong with the patterns that are told, and with the paths that are sent of those which the ignore file keeps; nothing if all is right."""
    named = named_of(graph)
    if told != [pattern_of(path) for path in named]:
        return f"named are {named}, and told is {told}"
    if sent is None or not named:
        return ""
    due = {path for path in kept if any(folders.is_at_or_below(path, place) for place in named)}
    above = {place for path in named for place in classes.above(path)[:-1]}
    lacking, needless = sorted(due - set(sent)), sorted(set(sent) - due - above)
    return f"named are {named}: {lacking} lack, {needless} are sent" if lacking or needless else ""


# ---- random folders --------------------------------------------------------------------------------
class Naming(folders.Folder):
    """A folder whose Dockerfile copies and binds some of its paths, as they are and by patterns."""

    def __init__(self, seed, number):
        super().__init__(seed, number)
        if self.dice.random() < 0.5:
            # what is named is there then
            self.ignore = self.paths["/.dockerignore"] = ""
        self.paths["/Dockerfile"] = "FROM scratch\n" + "".join(self.step(at) for at in range(self.dice.randrange(1, 4)))
        if self.dice.random() < 0.1:
            # a stage that isn't needed names nothing
            self.paths["/Dockerfile"] = "FROM scratch AS more\nCOPY . /\n" + self.paths["/Dockerfile"]

    def step(self, at):
        dice, own = self.dice, [path for path in self.paths if self.paths[path] is None and re.fullmatch("[-./0-9A-Za-z_]+", path)]
        if own and dice.random() < 0.08:
            return f"RUN --mount=type=bind,source={dice.choice(own)},target=/m put /n {at}\n"
        sources = [self.source() for _ in range(dice.choice([1, 1, 1, 1, 1, 1, 2]))]
        # in a list in JSON the escape character acts before itself and before `$`
        words = [re.sub(r"([\\$])", r"\\\1", text) for text in [*sources, f"/{at}/"]]
        return f"COPY {dice.choice(['', '', '--chmod=0640 '])}{json.dumps(words)}\n"

    def source(self):
        dice = self.dice
        names = dice.choice([path for path in self.paths if path != "/Dockerfile"] or ["/x"])[1:].split("/")
        kind = dice.random()
        if kind < 0.02:
            return self.like("/" + "/".join(names))
        if kind < 0.03:
            return dice.choice([".", "*", "\\.", "a/\\.", "./", "a/.."])
        components = [self.exact(name) for name in names]
        if kind < 0.3:
            at = dice.randrange(len(names))
            components[at] = self.component(names[at])
        return dice.choice(["", "", "", "/", "./", "no/../"]) + "/".join(components) + dice.choice(["", "", "", "/", "/."])

    def exact(self, name):
        """A component that spells a name, with more escapes than are needed now and then."""
        more = self.dice.choice(["", "", "", "!#^-] ab."])
        return "".join("\\" + c if c in "*?[\\" + more else c for c in name)
