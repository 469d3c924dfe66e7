"""Runs `rt ci` and prints how many processor minutes each crate takes.

    tools/bench gate [--anew] [FILE]     runs `rt ci` at the top of the repository, looks twice a second at the processes that it starts,
                                         and prints a table of processor minutes: each crate's library, its tests, its must-fail edits,
                                         and all the rest (compilers, runs). The gate's own words go to FILE (standard error where there
                                         is none). With --anew, `rt ci --anew` proves all, also what the toolchain keeps on this machine.

Processor minutes grow with load too. It ends with the gate's own status. Stopped by SIGINT or SIGTERM, it stops the
gate and prints the table so far. It reads /proc, so it needs Linux.
"""
import os
import signal
import subprocess
import sys
import time

from common import TOP
from proof.lanes import lanes

TICKS = os.sysconf("SC_CLK_TCK")
KINDS = ["library", "tests", "edits"]


def looked_at(pid):
    """(start, parent, seconds, words, folder) of a process, or none where it has ended."""
    try:
        with open(f"/proc/{pid}/stat", encoding="utf-8", errors="replace") as it:
            stat = it.read().rsplit(")", 1)[1].split()
        with open(f"/proc/{pid}/cmdline", encoding="utf-8", errors="replace") as it:
            words = it.read().split("\0")
        folder = os.readlink(f"/proc/{pid}/cwd")
    except OSError:
        return None
    return stat[19], int(stat[1]), (int(stat[11]) + int(stat[12])) / TICKS, words, folder


def below(root, found):
    """The processes that descend from the root."""
    children = {}
    for pid, it in found.items():
        children.setdefault(it[1], []).append(pid)
    queue, all_of = [root], []
    while queue:
        pid = queue.pop()
        all_of.append(pid)
        queue += children.get(pid, [])
    return all_of


def kind_of(words, folder):
    name = next((words[i + 1] for i, word in enumerate(words[:-1]) if word == "--crate-name"), None)
    if name is None:
        return None
    if not folder.startswith(TOP + os.sep):
        return name, "edits"
    return name, "tests" if "--test" in words else "library"


def main(words):
    flags = [it for it in words if it == "--anew"]
    names = [it for it in words if it != "--anew"]
    log = open(names[0], "w", encoding="utf-8") if names else sys.stderr
    # as many checks side by side as in the gate
    os.environ.setdefault("RT_JOBS", str(lanes()))
    began = time.time()
    gate = subprocess.Popen(["rt", "ci", *flags], cwd=TOP, stdin=subprocess.DEVNULL, stdout=log, stderr=subprocess.STDOUT)
    for it in (signal.SIGINT, signal.SIGTERM):
        signal.signal(it, lambda *_: gate.terminate())
    spent, crate_of = {}, {}
    while gate.poll() is None:
        found = {}
        for entry in os.listdir("/proc"):
            if entry.isdigit():
                it = looked_at(int(entry))
                if it:
                    found[int(entry)] = it
        for pid in below(gate.pid, found):
            if pid not in found:
                continue
            start, parent, seconds, called, folder = found[pid]
            # (a process that is ending gives its memory back before it leaves its folder: it has no words then, and keeps the name that it had)
            what = kind_of(called, folder) or crate_of.get((pid, start)) or crate_of.get((parent, found.get(parent, ("",))[0]))
            crate_of[pid, start] = what
            # (of a process that has ended, and isn't waited for yet, the system tells the time of one thread alone)
            spent[pid, start] = (what, max(seconds, spent.get((pid, start), (what, 0.0))[1]))
        time.sleep(0.5)
    table = {}
    rest = 0.0
    for what, seconds in spent.values():
        if what is None:
            rest += seconds
        else:
            row = table.setdefault(what[0], dict.fromkeys(KINDS, 0.0))
            row[what[1]] += seconds
    print("| Crate | Library | Tests | Edits | All |")
    print("|---|---|---|---|---|")
    for name, row in sorted(table.items(), key=lambda it: -sum(it[1].values())):
        print(f"| `{name}` | " + " | ".join(f"{row[kind] / 60:.1f}" for kind in KINDS) + f" | {sum(row.values()) / 60:.1f} |")
    sums = {kind: sum(row[kind] for row in table.values()) / 60 for kind in KINDS}
    print("| all | " + " | ".join(f"{sums[kind]:.1f}" for kind in KINDS) + f" | {sum(sums.values()) + rest / 60:.1f}, of which {rest / 60:.1f} are compilers and runs |")
    used = os.times()
    print(f"\n{(time.time() - began) / 60:.0f} minutes by the clock; {(used.children_user + used.children_system) / 60:.1f} processor minutes by the system's own count")
    return gate.returncode
