"""What several tools need: where things are, which crates there are, the toolchain, and how a tool finds its commands."""
import ast
import functools
import importlib
import importlib.machinery
import importlib.util
import itertools
import os
import signal
import subprocess
import sys

LIB = os.path.dirname(os.path.abspath(__file__))
TOP = os.path.dirname(os.path.dirname(LIB))
CRATES = f"{TOP}/crates"
# the program that `./run --proved` makes, and those that `rt ci` leaves
PROVED = f"{CRATES}/dfsolve/out/proved/dfsolve"
PROGRAM = f"{CRATES}/dfsolve/out/dfsolve"
TABLES = f"{CRATES}/tables/out/tables"
HELP = {"-h", "--help"}


# ---- a tool and its commands -----------------------------------------------------------------------
def commands(tool):
    """The files of a tool's commands, by the names of these."""
    names = sorted(name for name in os.listdir(f"{LIB}/{tool}") if name.endswith((".py", ".sh")) and not name.startswith("_"))
    return {os.path.splitext(name)[0].replace("_", "-"): f"{LIB}/{tool}/{name}" for name in names}


def head_of(path):
    """What a command's file begins with: what the command is for, and how it is called."""
    with open(path, encoding="utf-8") as it:
        text = it.read()
    if path.endswith(".py"):
        return ast.get_docstring(ast.parse(text))
    return "\n".join(line[2:] for line in itertools.takewhile(lambda line: line.startswith("#"), text.split("\n")[1:]))


def run(tool, says):
    """Runs the command that the first word names; `says` is what the tool is for."""
    known, words = commands(tool), sys.argv[1:]
    if not words or words[0] in HELP:
        width = max(map(len, known))
        print(f"{says}\n\n" + "\n".join(f"    tools/{tool} {name:{width}}  {head_of(path).splitlines()[0]}" for name, path in known.items()))
        print(f"\n`tools/{tool} COMMAND --help` says how one is called.")
        sys.exit(0 if words else 2)
    name, *words = words
    if name not in known:
        sys.exit(f"tools/{tool}: there is no command {name}, see tools/{tool} --help")
    if HELP.intersection(words):
        print(head_of(known[name]))
        sys.exit(0)
    if known[name].endswith(".sh"):
        os.execvp("bash", ["bash", known[name], *words])
    sys.exit(importlib.import_module(f"{tool}.{name.replace('-', '_')}").main(words))


def end_in_order():
    """Lets a signal that stops this process end it as `sys.exit` does, so that folders of what is half made go."""
    for it in (signal.SIGTERM, signal.SIGHUP):
        signal.signal(it, lambda number, _: sys.exit(128 + number))


# ---- the crates ------------------------------------------------------------------------------------
def crates():
    """The libraries that each crate lists, as crates.txt has them: the lowest first."""
    with open(f"{TOP}/crates.txt", encoding="utf-8") as file:
        lines = [line.split("#")[0].partition(":") for line in file]
    return {name.strip(): libraries.split() for name, colon, libraries in lines if colon}


def below(libraries, found, done):
    """The repository's crates that these libraries are and stand on, the lowest first, put behind those that are done."""
    for name in libraries:
        if name in found and name not in done:
            below(found[name], found, done)
            done.append(name)
    return done


# ---- the toolchain ---------------------------------------------------------------------------------
@functools.cache
def kit():
    """The toolchain's folder."""
    return os.path.dirname(subprocess.run(["rt", "doc"], check=True, capture_output=True, text=True).stdout.strip())


@functools.cache
def toolchain():
    """The toolchain's own `rt`, whose meaning of limits, edits and refusals is taken as it is."""
    loader = importlib.machinery.SourceFileLoader("rt", f"{kit()}/bin/rt")
    made = importlib.util.module_from_spec(importlib.util.spec_from_loader("rt", loader))
    loader.exec_module(made)
    return made


def rtlib():
    """The toolchain's module that knows crates."""
    if f"{kit()}/bin" not in sys.path:
        sys.path.insert(0, f"{kit()}/bin")
    return importlib.import_module("rtlib")


def keep_sums(crate_type):
    """Lets the sum of a crate be made once, and the list of those below it. A sum is that of all below too, each of which would be made anew for each way
    that leads down to it."""
    def once(of_crate):
        known = {}

        def found(crate):
            if crate.folder not in known:
                known[crate.folder] = of_crate(crate)
            return known[crate.folder]

        return found

    crate_type.stamp, below_it = once(crate_type.stamp), once(crate_type.below)
    crate_type.below = lambda crate: list(below_it(crate))
