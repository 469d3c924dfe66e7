"""What tools/hostile begins with, and what it makes of that. An input is a function of the seed and its number alone."""
import os
import random

from bundles import PLAIN, Members, Spelled, bundle_of, compact, lines_of, nested, read, spell, tables
from common import TOP


def packed_entries(folder, path=b""):
    """The entries of a folder in path order, as a bundle's context has them."""
    for name in sorted(os.listdir(folder)):
        place, at = path + b"/" + name, os.path.join(folder, name)
        entry = {"gid": 0, "mode": "0755", "path": place.decode(), "uid": 0}
        if os.path.isdir(at):
            yield {"dir": True, **entry}
            yield from packed_entries(at, place)
        else:
            with open(at, "rb") as it:
                yield {**entry, "hex": it.read().hex(), "mode": "0644"}


def packed(folder, dockerfile=None, args=None, target=None):
    """The bundle that `pack` makes of a folder of files and folders, its ignore file being an entry like others."""
    folder = os.fsencode(folder)
    root = {"dir": True, "gid": 0, "mode": "0755", "path": "/", "uid": 0}
    with open(dockerfile or os.path.join(folder, b"Dockerfile"), "rb") as it:
        bundle = {"context": [root, *packed_entries(folder)], "dockerfile": {"hex": it.read().hex()}}
    if args:
        bundle["args"] = args
    if target is not None:
        bundle["target"] = target
    return compact(bundle).encode() + b"\n"


def files_below(path):
    if not os.path.isdir(path):
        return [path]
    return sorted(os.path.join(at, name) for at, _, names in os.walk(path) for name in names)


class Seeds:
    """Bundles, and lines of Dockerfiles, of ignore files and of definitions: the examples, the rows of tables, and what the files named hold."""

    def __init__(self, paths):
        examples = os.path.join(TOP, "examples")
        self.bundles = []
        for at, _, names in sorted(os.walk(examples)):
            if "Dockerfile" in names:
                self.bundles.append(packed(at))
        for at in [*(os.path.join(examples, name) for name in sorted(os.listdir(examples)) if name.endswith(".json")), *(it for path in paths for it in files_below(path))]:
            with open(at, "rb") as it:
                self.bundles.append(it.read())
        rows = tables()
        for row in rows["programs"]:
            words, _, bundle = row.partition(" | ")[2].partition(" | ")
            if words.startswith(("dfsolve build", "dfsolve graph")) and bundle:
                self.bundles.append(bundle.encode())
        self.definitions = [row.partition(" | ")[2] for row in rows["definitions"]]
        self.texts = [unmasked(row.partition("»")[0]) for row in rows["files"]]
        self.lines = [row[6:].replace("¶", "\n") for row in rows["language"] if row.startswith("spell ")]
        self.words = [row[5:] for row in rows["language"] if row.startswith("word ")]
        self.patterns = [row.partition("\t")[0] for table in ("patterns", "ignore files") for row in rows[table] if row[:2] != "# "]
        self.readable = [bundle for bundle in self.bundles if is_object(bundle)]


def unmasked(shown):
    for sign, meant in (("⏎", "\n"), ("␍", "\r"), ("⇥", "\t"), ("⊙", "\ufeff")):
        shown = shown.replace(sign, meant)
    return shown


def is_object(bundle):
    try:
        return isinstance(read(bundle), Members)
    except (ValueError, RecursionError):
        return False


# what is put in a place: numbers and depths at limits, texts that are no Unicode, other types
NUMBERS = "0 -0 -1 00 1.0 1e2 1e400 -1e-400 4294967295 4294967296 9007199254740993 9223372036854775808 18446744073709551615 18446744073709551616 +1 .5 1. 0x1 NaN Infinity".split()
PIECES = ["\x00", "\ud800", "\udc00", "\ud83d\ude00", "\udbff\udbff", "\ufeff", "\u2028", "\x7f", "\x85", "\xa0", "é", "日本", "\u0301", "\r", "\n", "\r\n", "\t", "\\", "\\\n", "`",
          "'", '"', "$", "${", "${a:-", "${a:+", "}", "$a", "${a}", "[", "]", "[^", "[]", "[x-]", "*", "**", "?", "!", "#", "<<E", "<<-E", "<<'E'", "E", "=", ",", ":", " ", "--", "--link",
          "--from=", "--mount=", "--mount=type=cache,target=/c", "--chown=4294967295", "--chmod=7777", "/", "..", ".", "//", "/./", "scratch", "65535", "65536", "0", "-1", "# escape=`\n"]
BYTES = [b"\x00", b"\xff", b"\xc0\x80", b"\xed\xa0\x80", b"\xf4\x90\x80\x80", b"\xef\xbb\xbf", b"\xe2\x82", b"\\ud800", b"\\udc00\\ud800", b"\\u0000", b"\\u12", b"\\x", b'"', b"\\", b"{", b"}",
         b"[", b"]", b",", b":", b"null", b"true", b"\n", b" ", b"\x1f", b"/", b"1e9", b"-", b'{"', b'":', b'","']
KEYS = ["dockerfile", "context", "images", "args", "caches", "target", "text", "hex", "path", "mode", "uid", "gid", "dir", "config", "tree", "Env", "Labels", "Cmd", "Entrypoint", "Volumes",
        "ExposedPorts", "User", "WorkingDir", "StopSignal", "architecture", "os", "rootfs", "diff_ids", "type", "", "scratch", "\x00", "ops", "version", "inputs", "op", "binds", "caches", "env", "words"]
NAMES = ["a", "base", "s0", "A", "x.y", "f", "d", "/d/", "/", ".", "$a", "1", "img1", "*", "nope"]


def nested_objects(depth):
    return Spelled('{"a":' * depth + "1" + "}" * depth)


def odd_text(dice):
    kind = dice.randrange(6)
    if kind == 0:
        return "".join(dice.choice(PIECES) for _ in range(dice.randrange(1, 6)))
    if kind == 1:
        return "/p" * dice.choice([1, 63, 64, 65, 200])
    if kind == 2:
        return "/" + dice.choice(["n", "é"]) * dice.choice([127, 128, 254, 255, 256])
    if kind == 3:
        return "x" * dice.choice([0, 15, 16, 17, 4096, 65536])
    if kind == 4:
        return "${a:-" * dice.choice([1, 31, 32, 33]) + "x" + "}" * dice.choice([1, 31, 32, 33])
    return "".join(chr(dice.choice([dice.randrange(128), dice.randrange(0x3000), dice.randrange(0x110000)])) for _ in range(dice.randrange(20)))


def odd_value(dice):
    kind = dice.randrange(7)
    if kind == 0:
        return Spelled(dice.choice(NUMBERS))
    if kind == 1:
        return (nested if dice.random() < 0.5 else nested_objects)(dice.choice([1, 120, 122, 123, 124, 125, 126, 127, 128, 129, 5000]))
    if kind == 2:
        return dice.choice([None, True, False, [], Members(), "", 0, Spelled(""), Spelled("nul")])
    if kind == 3:
        return [odd_text(dice) for _ in range(dice.randrange(4))]
    if kind == 4:
        return Members((dice.choice(KEYS), odd_text(dice)) for _ in range(dice.randrange(4)))
    return odd_text(dice)


# a bundle as JSON


def places(value):
    """All lists and objects in a value, each with how many it has."""
    found, left = [], [value]
    while left:
        one = left.pop()
        if isinstance(one, list):
            found.append(one)
            left += [item[1] if isinstance(one, Members) else item for item in one]
    return [one for one in found if one]


def set_at(holder, place, value):
    holder[place] = (holder[place][0], value) if isinstance(holder, Members) else value


def change_value(dice, bundle):
    """Changes one list or object of a bundle at one place."""
    holder = dice.choice(places(bundle) or [[None]])
    place = dice.randrange(len(holder))
    kind = dice.randrange(8)
    if kind <= 2:
        set_at(holder, place, odd_value(dice))
    elif kind == 3:
        holder.insert(dice.randrange(len(holder) + 1), holder[place])
    elif kind == 4:
        del holder[place]
    elif kind == 5 and isinstance(holder, Members):
        holder[place] = (dice.choice([*KEYS, odd_text(dice)]), holder[place][1])
    elif kind == 6 and isinstance(holder, Members):
        holder.append((holder[place][0], odd_value(dice)))
    else:
        dice.shuffle(holder)


def dockerfile_text(bundle):
    """Where the Dockerfile's text is, and the text."""
    for key, value in bundle:
        if key == "dockerfile" and isinstance(value, Members):
            for place, (inner, text) in enumerate(value):
                if inner == "text" and isinstance(text, str):
                    return value, place, text
                if inner == "hex" and isinstance(text, str):
                    try:
                        return value, place, bytes.fromhex(text).decode()
                    except ValueError:
                        return None
    return None


def change_text(dice, seeds, text):
    """Changes a Dockerfile's text at one line or one character."""
    lines = text.split("\n")
    place = dice.randrange(len(lines))
    kind = dice.randrange(10)
    if kind <= 2:
        lines.insert(place + 1, dice.choice(seeds.lines))
    elif kind == 3:
        lines[place] = dice.choice(seeds.lines)
    elif kind == 4:
        del lines[place]
    elif kind == 5:
        lines.insert(dice.randrange(len(lines) + 1), lines[place])
    elif kind == 6:
        return change_word(dice, seeds, lines, place)
    elif kind == 7:
        lines[place] += dice.choice([" \\", "\\", " `", "\r", " ", "\t", " <<E", " <<-'E'"])
    else:
        at = dice.randrange(len(text) + 1)
        end = min(len(text), at + dice.choice([0, 0, 1, 5]))
        return text[:at] + (dice.choice(PIECES) if dice.random() < 0.8 else odd_text(dice)) + text[end:]
    return "\n".join(lines)


def change_word(dice, seeds, lines, place):
    words = lines[place].split(" ")
    words[dice.randrange(len(words))] = dice.choice([dice.choice(seeds.words), dice.choice(seeds.patterns), odd_text(dice), dice.choice(NAMES), dice.choice(PIECES)])
    lines[place] = " ".join(words)
    return "\n".join(lines)


def changed_dockerfile(dice, seeds, bundle):
    found = dockerfile_text(bundle)
    text = found[2] if found else "FROM scratch"
    if dice.random() < 0.05:
        text = dice.choice(seeds.texts)
    for _ in range(dice.choice([1, 1, 2, 3, 8])):
        text = change_text(dice, seeds, text)
    if found:
        found[0][found[1]] = ("text", text)
    if dice.random() < 0.2:
        bundle.append(("args", Members((dice.choice(["a", "V", "b", "v"]), odd_text(dice)) for _ in range(2))))
    return bundle


def entry(path, text):
    return Members([("path", path), ("text", text)])


def ignore_file(dice, seeds):
    lines = [dice.choice(["", "!", " ", "**/"]) + dice.choice([dice.choice(seeds.patterns), odd_text(dice), "*", "d"]) for _ in range(dice.randrange(1, 8))]
    return entry("/.dockerignore", "\n".join(lines))


def changed_context(dice, seeds, bundle):
    """Puts an ignore file and an odd entry into the context."""
    entries = [ignore_file(dice, seeds), entry(odd_text(dice), "x"), entry("/d/" + dice.choice(NAMES), "y")]
    for key, value in bundle:
        if key == "context" and isinstance(value, list):
            value += dice.sample(entries, dice.randrange(1, 3))
            return bundle
    bundle.append(("context", entries[:1]))
    return bundle


def changed_bytes(dice, seeds, text):
    """Cuts, doubles, fills in or changes some bytes."""
    at = dice.randrange(len(text) + 1)
    end = min(len(text), at + dice.choice([0, 1, 2, 8, 64]))
    kind = dice.randrange(7)
    if kind == 0:
        return text[:at]
    if kind == 1:
        return text[:at] + bytes([dice.randrange(256)]) + text[at + 1 :]
    if kind == 2:
        return text[:at] + text[end:]
    if kind == 3:
        return text[:end] + text[at:]
    if kind == 4:
        other = dice.choice(seeds.bundles)
        return text[:at] + other[dice.randrange(len(other) + 1) :]
    return text[:at] + dice.choice(BYTES) + text[end:]


# bundles with many small things


def many_stages(count):
    return bundle_of("\n".join(f"FROM {'scratch' if k == 0 else f's{k - 1}'} AS s{k}" for k in range(count)))


def many_lines(count):
    return bundle_of(lines_of(*["RUN true"] * (count - 1)))


def many_mounts(count):
    return bundle_of(lines_of("RUN " + " ".join(f"--mount=type=cache,target=/c{k}" for k in range(count)) + " true"))


def many_names(count):
    return bundle_of(lines_of("ENV " + " ".join(f"v{k}=" for k in range(count)), "ARG " + " ".join(f"a{k}" for k in range(count)), "RUN true"))


def many_patterns(count):
    names = [f"n{k}" for k in range(min(count, 300))]
    return bundle_of(lines_of("COPY " + " ".join(f"*{k % 300}" for k in range(count)) + " /d/"), context=[{"path": "/" + name, "text": ""} for name in names])


def many_ignore_lines(count):
    lines = "\n".join(f"**/x{k}/**/*{k}" if k % 3 else f"!d/**/{k}?" for k in range(count))
    return bundle_of(lines_of("COPY . /"), context=[{"path": "/.dockerignore", "text": lines}, {"path": "/d" * 64, "text": "x"}])


def many_deep_paths(count):
    return bundle_of(lines_of("COPY . /"), context=[{"path": f"/a{k}" + "/p" * (60 + k % 6), "text": ""} for k in range(min(count, 500))])


def many_labels(count):
    config = {**PLAIN, "config": {"Labels": {f"l{k}": "" for k in range(count)}, "Env": [f"e{k}=" for k in range(count)], "Volumes": {f"/{k}": {} for k in range(count)}}}
    return bundle_of("FROM a AS b\nFROM b\nLABEL x=1", images={"a": {"config": config, "tree": []}})


def many_images(count):
    return bundle_of(lines_of(*(f"COPY --from=i{k} . /" for k in range(min(count, 4000)))), images={f"i{k}": {"config": PLAIN, "tree": []} for k in range(count)})


def many_heredocs(count):
    marks = [f"e{k}" for k in range(min(count, 3000))]
    return bundle_of(lines_of("COPY " + " ".join("<<" + mark for mark in marks) + " /d/", *(line for mark in marks for line in ("$x", mark))))


def many_continued(count):
    return bundle_of(lines_of("RUN put /a \\\n" + "# c\n\nx \\\n" * count + "y"))


def many_operations(count):
    return bundle_of(lines_of(*(f"COPY --link <<E /d{k}/\n$x\nE" for k in range(min(count, 4000)))))


def many_nests(count):
    return bundle_of("FROM scratch", images={"a": {"config": {**PLAIN, "x": [nested(120)] * count}, "tree": []}})


def large_value(count):
    return bundle_of(lines_of("ARG a=" + "x" * 1024, "ENV b=" + "$a" * count, "ENV c=$b", "RUN show c /f"))


MANY = [many_stages, many_lines, many_mounts, many_names, many_patterns, many_ignore_lines, many_deep_paths, many_labels, many_images, many_heredocs, many_continued, many_operations, many_nests,
        large_value]
COUNTS = [1, 2, 15, 16, 17, 63, 64, 65, 255, 256, 257, 1023, 1024, 1025, 4095, 4096, 4097]


def bundle(seed, number, seeds):
    """The bundle of this number, and the dice for what else is chosen."""
    dice = random.Random(f"bundle {seed} {number}")
    if dice.random() < 0.01:
        text = dice.choice(MANY)(dice.choice(COUNTS))
    else:
        text = one_bundle(dice, seeds)
    for _ in range(dice.choice([0, 0, 0, 0, 0, 0, 1, 1, 3])):
        text = changed_bytes(dice, seeds, text)
    return text, dice


def one_bundle(dice, seeds):
    value = read(dice.choice(seeds.readable))
    kind = dice.random()
    if kind < 0.1:
        return dice.choice(seeds.bundles)
    if kind < 0.85:
        changed_dockerfile(dice, seeds, value)
    if 0.7 < kind < 0.9:
        changed_context(dice, seeds, value)
    if kind > 0.8:
        for _ in range(dice.choice([1, 1, 2, 5])):
            change_value(dice, value)
    return spell(value).encode()


def definition(seed, number, seeds):
    """The text of a definition in one line."""
    dice = random.Random(f"definition {seed} {number}")
    text = dice.choice(seeds.definitions)
    if is_object(text.encode()) and dice.random() < 0.8:
        value = read(text)
        for _ in range(dice.choice([1, 1, 2, 4])):
            change_value(dice, value)
        text = spell(value)
    text = text.encode("utf-8", "surrogatepass")
    for _ in range(dice.choice([0, 0, 1, 2])):
        text = changed_bytes(dice, seeds, text)
    return text.decode(errors="replace").replace("\n", " ").replace("\r", " ").encode()
