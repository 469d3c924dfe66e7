"""Checks some functions and all that they call, over the sources of the crates below.

    tools/proof function CRATE FUNCTION.. [--allow-holes]     as in `tools/proof function evaluation evaluated::evaluate`

It needs no crate proved before and locks none, so it serves where those below are being changed or proved by somebody
else. A crate below of which this checkout has the library is taken as that, and its proofs aren't looked at; of any
other the sources are read. The files of lemmas are checked that a function's proof cites. What was checked is kept in
out/functions, so a second run is shorter. It gives no verdict, which `rt check` does.
"""
import os
import sys

from common import CRATES, TOP, below, crates, keep_sums, kit, rtlib


def built(low):
    """Those of these crates of which the library stands here that is of their sources."""
    keep_sums(rtlib().Crate)
    known = {it.name: it for it in rtlib().crates_below(TOP)}
    return [name for name in low if known[name].is_built()]


def command_line(crate, found):
    """The command line of the checker."""
    low = below(found[crate], found, [])
    ready = built(low)
    kits = sorted({it for name in low + [crate] for it in found[name] if it not in found} | {"core", "std"})
    root = next(it for it in ("src/lib.rt", "src/main.rt") if os.path.isfile(f"{CRATES}/{crate}/{it}"))
    line = [f"{kit()}/bin/rattle", "check", "--crate-name", crate, root, "-L", f"dependency={kit()}/rlibs"]
    for name in kits:
        line += ["--extern", f"{name}={kit()}/rlibs/{name}.rlib"]
    for name in low:
        if name in ready:
            line += ["--extern", f"{name}={CRATES}/{name}/out/rlib/{name}.rlib"]
        else:
            line += ["--lib", f"{name}:{','.join(['core', 'std'] + found[name])}={CRATES}/{name}/src/lib.rt"]
    line += ["--antt-project", f"{kit()}/rattle/logic/antt-project.json", "--logic-built", f"{kit()}/logic_built", "--jobs", "1"]
    os.makedirs(f"{CRATES}/{crate}/out/functions", exist_ok=True)
    return line + ["--incremental", f"{CRATES}/{crate}/out/functions"]


def main(words):
    names = [it for it in words if not it.startswith("--")]
    found = crates()
    if len(names) < 2 or names[0] not in found:
        sys.exit(__doc__)
    flags = [it for it in words if it.startswith("--")]
    for name in names[1:]:
        flags += ["--only", name]
    os.chdir(f"{CRATES}/{names[0]}")
    line = command_line(names[0], found) + flags
    os.execv(line[0], line)
