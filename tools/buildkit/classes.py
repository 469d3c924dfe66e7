"""The classes of differences between BuildKit's trees and those of `dfsolve build`, for tools/buildkit: which class explains one, by what it shows."""
import fnmatch
import re

from bundles import address_of

CLASSES = {
    "merge": "BuildKit before 0.10 knows no merge, and says so by the name mergeop",
    "chain": "in a chain of copies a file can't come over a folder, and a folder can't come over a file",
    "cached": "BuildKit 0.8 takes a copy for one that it knows if what is copied differs in owners alone, but for what is sent by its client",
    "placed twice": "two entries on one path (F3): the last one counts",
    "destination": "a folder that a pattern takes makes the destination a folder, and files then go below it (F4)",
    "another failure": "of several instructions that fail any one is named",
    "depth": "a path may have more than 64 components (F5)",
    "bind of a file": "a bind may be a file (F2)",
    "bind written to": "a bind may be written to without rw if it is of an image, or of what something else is made of: dockerd 20.10 mounts it so",
    "mode": "--chmod leaves the bits beyond 0777 as the source has them",
    "owner": "4294967295 means that the owner stays",
    "mount": "an empty folder is left at the target of a mount, and what would make a file there fails or goes below it",
    "runtime": "a pattern takes an empty folder that a runtime left in a tree for its own mounts, as d* takes /dev",
    "target": "nothing can be mounted at a file or below one, and what holds a mount can't be removed",
    "environment": "a command has PATH and HOME in its environment",
    "directory": "a command's directory is made if it isn't there, and what would make a file there, or has one there, fails or goes below it",
    "told": "what is told of a path by --follow is looked up as it is: a name may be too long with its escapes, and a file may stand there",
    "group": "what is made in a folder with the bit 02000 gets its group, and a folder that bit too",
    "slash": "a class of a pattern takes a `/`, if it is negated or has a range around it, and so paths of more components",
    "name": "Go refuses the name of an image",
    "arguments": "a command's word or variable has a NUL, or is past the system's limits",
    "elsewhere": "an image with a host in its name is another registry's, which isn't asked",
    "unprintable": "a path that is left out isn't printable ASCII, and `dfsolve llb` says so",
}
# what a runtime or the fixture says of a mount that can't be made, or that holds its target
NO_TARGET = "error mounting .*not a directory|fixture: .*device or resource busy"
# what a runtime makes in a root for its own mounts
RUNTIME = ["/dev", "/proc", "/sys", "/etc/hosts", "/etc/resolv.conf", "/.dfsolve"]


def tree_of(answer):
    """The entries of an answer but for the root: path to (mode, owner, group, bytes), no bytes for a folder."""
    return {e["path"]: (int(e["mode"], 8), e["uid"], e["gid"], None if e.get("dir") else bytes.fromhex(e["hex"])) for e in answer["tree"] if e["path"] != "/"}


def runs_of(graph):
    return [op for op in graph["ops"] if op["op"] == "exec"]


def copies_of(graph):
    return [op for op in graph["ops"] if op.get("action") == "copy"]


EMPTY, CONTEXT = (address_of({"inputs": [], "op": "source", "source": name}) for name in ("scratch", "context"))


def merges_of(graph):
    """How many merges there are of several trees that aren't empty."""
    return sum(op["op"] == "merge" and len(op["inputs"]) - op["inputs"].count(EMPTY) > 1 for op in graph["ops"])


def sources_of(graph):
    return [op.get("source") for op in graph["ops"]]


def above(path):
    parts = path.split("/")
    return ["/".join(parts[:n]) for n in range(2, len(parts) + 1)]


def takes_runtimes(graph):
    """Whether a pattern of a COPY matches what a runtime leaves."""
    sources = [source.get("pattern", "") for copy in copies_of(graph) for source in copy["sources"]]
    patterns = ["/" + pattern.lstrip("/") for pattern in sources if re.search(r"[*?[]", pattern)]
    places = {place for target in RUNTIME for place in above(target)}
    return bool(runs_of(graph)) and any(fnmatch.fnmatchcase(place, pattern) for place in places for pattern in patterns)


def may_take_slashes(graph):
    """Whether a pattern of a COPY has a class that takes a `/`."""
    classes = [found for copy in copies_of(graph) for source in copy["sources"] for found in re.findall(r"\[(\^?)([^\]]*)\]", source.get("pattern", ""))]
    return any(negated or re.search(r"[!-/]-[/-~]", items) for negated, items in classes)


def takes_group(path, mine, other, theirs):
    """Whether a difference is the group, or the bit, of a folder above that has the bit 02000."""
    folders = [theirs[place] for place in above(path)[:-1] if place in theirs]
    return bool(folders) and folders[-1][0] & 0o2000 and folders[-1][2] == other[2] and mine[1] == other[1] and mine[3] == other[3] and mine[0] == other[0] & ~0o2000


def without_targets(theirs, ours, graph):
    """Their tree without the empty places that mounts left; whether anything was left beside the runtime's own is said too."""
    runs = runs_of(graph)
    targets = [m["target"] for run in runs for m in run["binds"] + run["caches"]]
    left, is_left = dict(theirs), False
    places = {place: False for target in RUNTIME for place in above(target)} if runs else {}
    for target in targets:
        places.update({place: True for place in above(target)})
    # a COPY of a whole stage takes them along, so what counts is how a place ends
    for path in sorted(left, key=len, reverse=True):
        mine = [place for place in places if path == place or path.endswith(place)]
        held = left[path][3]
        if mine and path not in ours and not held and not any(other.startswith(path + "/") for other in left):
            is_left = is_left or any(places[place] for place in mine)
            del left[path]
    return left, is_left


def is_told_wrongly(ours, message):
    """Whether what is sent failed where a path that is told was looked up, which is no difference if a COPY has nothing to copy."""
    return ours.get("cause") != "F1" and re.search("load build context; .*(file name too long|not a directory)$", message, re.S)


def is_of_chain(message):
    """Whether what failed is a linked COPY, by a file that stands where a folder comes, or the other way round."""
    return re.search("failed at: .*COPY.*--link.*; .*cannot (copy to non-directory|replace to directory)", message, re.I | re.S)


def class_of(ours, theirs, graph, message, options):
    """The classes that explain a difference, or none; an empty list if there is no difference."""
    runs = runs_of(graph)
    if re.match("no end in|the context can't", message):
        return None
    if "mergeop" in message:
        return ["merge"]
    if theirs is None and re.search("invalid reference|invalid repository|could not parse reference|repository name", message):
        return ["name"]
    if theirs is None and options.follow and is_told_wrongly(ours, message):
        return ["told"]
    if theirs is None and re.search("argument list too long|invalid argument.*(env|arg)|NUL|file name too long", message):
        return ["arguments"]
    if theirs is None and options.chain and is_of_chain(message):
        return ["chain"]
    if ours["result"] == "failed":
        return class_of_failure(ours["cause"], message, graph) if theirs is None else class_of_cause(ours["cause"], graph)
    if theirs is None:
        return class_of_command(tree_of(ours), graph, message)
    return classes_of_trees(tree_of(ours), theirs, graph, options)


def class_of_failure(cause, message, graph):
    """Whether two failures are alike: any two are if there are several commands, since each of these may be the one that is named."""
    runs, status = runs_of(graph), re.search(r"exit code: (\d+)", message)
    asked_for = cause.split(" ")[-1] if cause.startswith("exit") else None
    if asked_for == (status and status.group(1)) or len(runs) > 1:
        return []
    if re.search(NO_TARGET, message):
        return ["target"]
    return ["another failure"] if bool(asked_for) != bool(status) and copies_of(graph) else None


def may_be_written(graph):
    """Whether there is a bind without rw of an image, or of a tree on which another operation is made or that another bind may write to."""
    images = {address_of(op) for op in graph["ops"] if (op.get("source") or "").startswith("image:")}
    bases = {op["inputs"][0] for op in graph["ops"] if op["op"] != "end" and op["inputs"]} - {EMPTY}
    bound = [(given, bind["rw"]) for run in runs_of(graph) for given, bind in zip(run["inputs"][1:], run["binds"], strict=True)]
    written = images | bases | {given for given, may_write in bound if may_write}
    return any(given in written and not may_write for given, may_write in bound)


def class_of_cause(cause, graph):
    """Why something failed here alone."""
    binds = [bind for run in runs_of(graph) for bind in run["binds"]]
    if cause == "F2" and binds:
        return ["bind of a file"]
    if cause == "exit 1" and may_be_written(graph):
        return ["bind written to"]
    if cause == "F1" and takes_runtimes(graph):
        return ["runtime"]
    if cause == "F4" and not all(copy["dir"] for copy in copies_of(graph)):
        return ["destination"]
    return {"F3": ["placed twice"], "F5": ["depth"]}.get(cause)


def left_folders(runs):
    """Where a runtime leaves folders, each with its class."""
    places = {place: "directory" for run in runs for place in above(run["dir"])}
    places.update({place: "mount" for run in runs for mount in run["binds"] + run["caches"] for place in above(mount["target"])})
    return places


def class_of_command(ours, graph, message):
    """Why a command failed there alone."""
    if re.search(NO_TARGET, message):
        return ["target"]
    if re.search("cannot (copy to non-directory|replace to directory)", message) and takes_runtimes(graph):
        return ["runtime"]
    found = {name for place, name in left_folders(runs_of(graph)).items() if place in ours and ours[place][3] is not None}
    return sorted(found) if found and re.search("is a directory|error during container init: mkdir .*not a directory", message) else None


def gone_below(ours, theirs, places):
    """Files that went below a folder which was left at their place: both paths of each, with the class."""
    found = {}
    for place in set(places) & set(ours) & set(theirs):
        held = ours[place][3]
        below = [path for path in theirs if path.startswith(place + "/") and path not in ours and theirs[path][3] == held]
        if held is not None and theirs[place][3] is None and below:
            found.update({path: places[place] for path in [place, *below]})
    return found


def class_of_entries(mine, other, graph):
    """The class of one path at which both have something."""
    if mine[1:] == other[1:] and mine[0] & 0o777 == other[0] & 0o777 and any(copy["mode"] is not None for copy in copies_of(graph)):
        return "mode"
    if mine[0] == other[0] and mine[3] == other[3] and 4294967295 in mine[1:3]:
        return "owner"
    # what a command shows of its environment may be made longer by another one
    shown = rb"(/root|/|(/[a-z/]*bin:?)+)" + re.escape(mine[3] or b"")
    return "environment" if runs_of(graph) and mine[:3] == other[:3] and mine[3] is not None and re.fullmatch(shown, other[3] or b"") else None


def copies_results(graph, is_chained):
    """Whether something is copied that isn't of the context as it was sent: by a chain, or of a stage or an image."""
    return is_chained and merges_of(graph) or any(copy["inputs"][1] != CONTEXT for copy in copies_of(graph))


def is_cached(mine, other, graph, options):
    """Whether a difference is of owners alone, where this engine's cache may have taken a copy for another one."""
    return options.engine == "0.8" and mine[0] == other[0] and mine[3] == other[3] and copies_results(graph, options.chain)


def classes_of_trees(ours, theirs, graph, options):
    theirs, is_left = without_targets(theirs, ours, graph)
    places = left_folders(runs_of(graph))
    gone = gone_below(ours, theirs, places)
    found = {*gone.values(), *(["mount"] if is_left else [])}
    for path in set(ours) | set(theirs):
        mine, other = ours.get(path), theirs.get(path)
        if mine == other or path in gone:
            continue
        if mine is None and other[3] is None and any(path.endswith(place) for place in places if places[place] == "directory"):
            found.add("directory")
            continue
        if mine is None and may_take_slashes(graph):
            found.add("slash")
            continue
        name = mine and other and ("group" if takes_group(path, mine, other, theirs) else class_of_entries(mine, other, graph))
        if not name and mine and other and is_cached(mine, other, graph, options):
            name = "cached"
        if not name:
            return None
        found.add(name)
    return sorted(found)
