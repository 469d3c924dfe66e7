"""Whether what the program printed is an answer of docs/FORMATS.md, and its status fits. Each `check_` raises `Offence`."""
import json
import re

from bundles import address_of, compact

CAUSE = re.compile(r"F[1-5]|exit ([1-9]\d{0,2})")
CODE = re.compile(r"R0[1-9]|R1\d|R2[01]")
MODE = re.compile(r"[0-7]{4}")
HEX = re.compile(r"(?:[0-9a-f]{2})*")
PORTION = re.compile(rb"n: (?:(?:Malformed|Unknown|Repeated|Clash) \d+|\d+ vertices, result \d+, (?:as it stood|in other words))\n")
CONFIG_KEYS = {"Cmd", "Entrypoint", "Env", "ExposedPorts", "Labels", "StopSignal", "User", "Volumes", "WorkingDir"}
# the codes that are told at line 0, always or beside others
WITHOUT_LINE = {"R13", "R18", "R20"}


class Offence(Exception):
    pass


def need(holds, what):
    if not holds:
        raise Offence(what)


def answer_line(printed):
    """The one line of compact JSON that was printed, as a value."""
    need(printed.endswith(b"\n") and printed.count(b"\n") == 1, "standard output is not one line")
    try:
        value = json.loads(printed)
        same = compact(value).encode()
    except (ValueError, RecursionError) as why:
        raise Offence(f"standard output is no JSON: {why}") from why
    need(same == printed[:-1], "the line is not compact JSON with its keys in order")
    need(isinstance(value, dict), "the answer is no object")
    return value


def is_number(value, most):
    return type(value) is int and 0 <= value <= most


def is_text(value):
    return isinstance(value, str)


def is_texts(value):
    return isinstance(value, list) and all(map(is_text, value))


def is_path(value):
    if not is_text(value) or not value.startswith("/"):
        return False
    return value == "/" or is_path_of(value[1:].split("/"))


def is_path_of(components):
    return len(components) <= 64 and all(0 < len(it.encode()) <= 255 and it not in (".", "..") for it in components)


def check_config(config):
    need(set(config) == {"architecture", "config", "os", "rootfs"}, "the configuration has other keys")
    need(is_text(config["architecture"]) and is_text(config["os"]), "architecture or os is no text")
    need(config["rootfs"] == {"diff_ids": [], "type": "layers"}, "rootfs is another one")
    inner = config["config"]
    need(isinstance(inner, dict) and set(inner) <= CONFIG_KEYS, "config has another key")
    need(all(inner.values()), "config has an empty field")
    for key in ("Cmd", "Entrypoint", "Env"):
        need(is_texts(inner.get(key, [])), f"{key} is no list of texts")
    for key in ("StopSignal", "User", "WorkingDir"):
        need(is_text(inner.get(key, "")), f"{key} is no text")
    for key in ("ExposedPorts", "Volumes"):
        need(all(value == {} for value in inner.get(key, {}).values()), f"{key} has a value")
    need(all(map(is_text, inner.get("Labels", {}).values())), "a label is no text")
    check_env(inner.get("Env", []))
    need(is_path(inner.get("WorkingDir", "/")), "WorkingDir is no clean path")


def check_env(texts):
    names = [text.partition("=")[0] for text in texts]
    need(all("=" in text and name for text, name in zip(texts, names)), "Env has a text without a name and =")
    need(len(set(names)) == len(names), "Env has a name twice")


def check_tree(tree):
    need(isinstance(tree, list) and tree and tree[0].get("path") == "/", "the tree has no root")
    folders, before = set(), None
    for entry in tree:
        keys = {"dir", "gid", "mode", "path", "uid"} if "dir" in entry else {"gid", "hex", "mode", "path", "uid"}
        need(set(entry) == keys, "an entry has other keys")
        need(is_path(entry["path"]), "an entry's path is not clean")
        need(is_number(entry["gid"], 4294967295) and is_number(entry["uid"], 4294967295), "an owner is out of range")
        need(is_text(entry["mode"]) and MODE.fullmatch(entry["mode"]), "a mode is not four octal digits")
        need(entry.get("dir", True) is True and HEX.fullmatch(entry.get("hex", "")), "an entry is neither a directory nor a file")
        parts = entry["path"].encode().split(b"/")[1:] if entry["path"] != "/" else []
        need(before is None or before < parts, "the entries are not in order")
        need(not parts or b"/".join(parts[:-1]) in folders, "an entry has no parent")
        if "dir" in entry:
            folders.add(b"/".join(parts))
        before = parts


def check_refused(answer):
    keys = {"code", "line", "result", "text"} if answer.get("code") == "R21" else {"code", "line", "result"}
    need(set(answer) == keys and answer["result"] == "refused", "a refusal has other keys")
    need(is_text(answer.get("text", "")), "the text of a refusal is none")
    need(is_text(answer["code"]) and CODE.fullmatch(answer["code"]), "the code is none")
    need(is_number(answer["line"], 1 << 26), "the line is no number")
    code, line = answer["code"], answer["line"]
    need(line == 0 if code in ("R13", "R20") else line > 0 or code in WITHOUT_LINE, "the line does not fit the code")


def check_failed(answer):
    need(set(answer) == {"cause", "line", "result"} and answer["result"] == "failed", "a failure has other keys")
    found = CAUSE.fullmatch(answer["cause"]) if is_text(answer["cause"]) else None
    need(found and (not found[1] or int(found[1]) <= 255), "the cause is none")
    need(is_number(answer["line"], 1 << 20) and answer["line"] > 1, "the line is none")


def check_built(answer):
    need(set(answer) == {"config", "result", "tree"} and answer["result"] == "built", "what was built has other keys")
    check_config(answer["config"])
    check_tree(answer["tree"])


def check_ending(run):
    """That a run ended by itself, in its time, and was silent where it answered."""
    need(not run.is_late, "no answer in the time")
    need(run.status >= 0, f"ended by signal {-run.status}")
    need(run.status in (0, 1, 2, 3), f"ended with {run.status}")
    if run.status == 3:
        need(run.printed == b"", "printed something, and ended with 3")
    else:
        need(run.errors == b"", "wrote to standard error")


def outcome_of_build(run):
    """What a build answered, in a few words."""
    check_ending(run)
    if run.status == 3:
        need(run.errors == b"out of memory\n", "ended with 3 for another reason than memory")
        return "out of memory"
    answer = answer_line(run.printed)
    (check_built, check_failed, check_refused)[run.status](answer)
    return ["built", "failed", "refused " + answer.get("code", "")][run.status]


def outcome_of_graph(run):
    check_ending(run)
    if run.status == 3:
        need(run.errors == b"out of memory\n", "ended with 3 for another reason than memory")
        return "out of memory"
    need(run.status != 1, "a graph that failed")
    answer = answer_line(run.printed)
    if run.status == 2:
        check_refused(answer)
        return "refused " + answer["code"]
    check_graph(answer)
    return "drawn"


SHAPES = {
    "source": {"inputs", "op", "source"},
    "mkdir": {"action", "inputs", "op", "path"},
    "copy": {"action", "dest", "dir", "gid", "inputs", "mode", "op", "sources", "uid"},
    "exec": {"binds", "caches", "dir", "env", "inputs", "op", "user", "words"},
    "merge": {"inputs", "op"},
}


def check_graph(answer):
    """That operations are spelled as the tables say, each after its inputs, none twice, and that the result needs them all."""
    need(set(answer) == {"ops", "version"} and answer["version"] == 2, "a graph has other keys")
    *operations, end = answer["ops"]
    need(set(end) == {"inputs", "op"} and end["op"] == "end" and len(end["inputs"]) == 1, "the graph has no end")
    for operation in operations:
        check_lines(operation.pop("places", None))
    needed, known = set(end["inputs"]), set()
    addresses = [address_of(operation) for operation in operations]
    for operation, address in zip(operations, addresses):
        check_operation(operation)
        need(known.issuperset(operation["inputs"]), "an input names no operation before")
        need(address not in known, "an operation stands twice")
        known.add(address)
    for operation, address in zip(reversed(operations), reversed(addresses)):
        need(address in needed, "an operation that the result does not need")
        needed.update(operation["inputs"])


def check_lines(lines):
    """That an operation of a file's graph comes from lines, in ascending order, each once; a file has no more bytes than the last one allows."""
    need(isinstance(lines, list) and lines and all(type(line) is int for line in lines), "an operation comes from no line")
    need(lines == sorted(set(lines)) and lines[0] >= 1 and lines[-1] <= 1_048_576, "an operation's lines are none")


def check_operation(operation):
    kind = operation.get("action") or operation.get("op")
    need(kind in SHAPES and set(operation) == SHAPES[kind], "an operation has other keys")
    need(is_texts(operation["inputs"]), "inputs are no texts")
    count = len(operation["inputs"])
    if kind == "source":
        name = operation["source"]
        need(count == 0 and (name in ("scratch", "context") or (name.startswith("image:") and name not in ("image:", "image:scratch"))), "a source is none")
    elif kind == "mkdir":
        need(count == 1 and is_path(operation["path"]), "a mkdir is malformed")
    elif kind == "copy":
        check_copy(operation, count)
    elif kind == "exec":
        check_run(operation, count)
    else:
        need(count >= 2, "a merge of one")


def check_copy(operation, count):
    sources = operation["sources"]
    patterns = [source for source in sources if set(source) == {"pattern"}]
    files = [source for source in sources if set(source) == {"data", "name"} and HEX.fullmatch(source["data"]) and is_path_of([source["name"]])]
    need(sources and len(patterns) + len(files) == len(sources), "a copy's source is malformed")
    need(count == (2 if patterns else 1) and is_path(operation["dest"]), "a copy is malformed")
    need((operation["gid"] is None) == (operation["uid"] is None), "one owner of two")


def check_run(operation, count):
    need(count == 1 + len(operation["binds"]) and operation["words"] and is_texts(operation["words"]), "a run is malformed")
    check_env(operation["env"])
    need(is_path(operation["dir"]) and is_text(operation["user"]), "a run's folder or user is malformed")
    for bind in operation["binds"]:
        need(set(bind) == {"rw", "source", "target"} and is_path(bind["source"]) and is_path(bind["target"]), "a bind is malformed")
    for cache in operation["caches"]:
        need(set(cache) == {"id", "sharing", "target"} and cache["sharing"] in ("shared", "private", "locked"), "a cache is malformed")


def check_same(first, second, what):
    """That two runs answered alike, unless one of them had no memory."""
    if 3 not in (first.status, second.status):
        need((first.status, first.printed) == (second.status, second.printed), what)


def check_refusals(build, graph):
    """That a graph is refused exactly where the build is, and by the same line."""
    if 3 not in (build.status, graph.status):
        need((build.status == 2) == (graph.status == 2), "one of build and graph refuses")
        if build.status == 2:
            need(build.printed == graph.printed, "build and graph refuse differently")


def outcome_of_definition(run):
    """What the program `tables` answered on one case."""
    need(not run.is_late and run.status == 0 and run.errors == b"", "the table's program did not end with 0")
    lines = run.printed.split(b"\n", 1)
    need(lines[0] == b"== definitions" and PORTION.fullmatch(lines[1]), "no answer of the table")
    return lines[1].split()[1].decode() if lines[1].split()[1].isalpha() else "read"


def outcome_of_pack(run):
    """What packing ended with; whether it is the right end is judged by who made the folder."""
    need(not run.is_late, "no answer in the time")
    need(run.status in (0, 2, 3), f"ended with {run.status}")
    if run.status == 0:
        need(run.errors == b"", "wrote to standard error")
        return "packed"
    need(run.printed == b"", "printed something, and packed nothing")
    need(run.errors.endswith(b"\n"), "said nothing")
    if run.status == 3:
        need(run.errors.startswith((b"cannot pack", b"device failed", b"out of memory")), "ended with 3 for no known reason")
        return run.errors.split(b":")[0].strip().decode()
    return "no Dockerfile" if run.errors == b"no Dockerfile\n" else "a wrong command line"
