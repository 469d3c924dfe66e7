"""Bundles and JSON as several tools make and read them, and the tables of the program `tables`."""
import hashlib
import json

from common import CRATES

# the least configuration of an image
PLAIN = {"architecture": "amd64", "os": "linux", "rootfs": {"diff_ids": [], "type": "layers"}}


class Members(list):
    """An object as the list of its members, so that a key may be in it twice."""


class Spelled(str):
    """A piece of JSON as it is spelled, right or wrong."""


def read(text):
    return json.loads(text, object_pairs_hook=Members)


def spell(value):
    """JSON's text of a value; a half of a pair in a text becomes an escape."""
    if isinstance(value, Spelled):
        return str(value)
    if isinstance(value, Members):
        return "{" + ",".join(f"{spell(key)}:{spell(of_key)}" for key, of_key in value) + "}"
    if isinstance(value, list):
        return "[" + ",".join(map(spell, value)) + "]"
    if isinstance(value, dict):
        return spell(Members(value.items()))
    return json.dumps(value)


def compact(value):
    """JSON's text of a value as the program writes it."""
    return json.dumps(value, sort_keys=True, separators=(",", ":"), ensure_ascii=False)


def nested(depth, inside="1"):
    return Spelled("[" * depth + inside + "]" * depth)


def bundle_of(dockerfile, **more):
    return spell({"dockerfile": {"text": dockerfile}, **more}).encode()


def lines_of(*lines):
    return "\n".join(["FROM scratch", *lines])


def in_order(entries):
    """Entries of a tree as a walk through their folders tells them."""
    return sorted(entries, key=lambda entry: entry["path"].encode().split(b"/"))


def address_of(operation):
    """The address of an operation of a graph, which has no places in it."""
    return "sha256:" + hashlib.sha256(compact({key: held for key, held in operation.items() if key != "places"}).encode()).hexdigest()


def tables(file="stdin"):
    """The rows of each table of the program `tables`, or their answers (`stdout`)."""
    rows, table = {}, ""
    with open(f"{CRATES}/tables/{file}", encoding="utf-8", newline="\n") as it:
        for line in it.read().split("\n")[:-1]:
            if line.startswith("== "):
                table = line[3:]
            else:
                rows.setdefault(table, []).append(line)
    return rows
