"""What BuildKit's tests print, and what is said of it."""
import re

# what can't be here, and why
NEEDS = {
    "TestAddGit": "apk", "TestSSHFileDescriptorsClosed": "apk, the network", "TestReproSourceDateEpoch": "an image of Debian's, by its digest",
    "TestRunDefaultNetwork": "a bridge", "TestRunHostNetwork": "a bridge", "TestRunNoNetwork": "a bridge",
    "TestClientLLBProvenance": "the network, and a front end in the client", "TestClientFrontendProvenance": "the network, and a front end in the client",
    "TestCgroupParent": "cgroups of version 2",
}
LINE = re.compile(r"^(\s*)--- (PASS|FAIL|SKIP): TestIntegration/(\w+)/worker=([\w-]+)/frontend=\w+(\S*) \(([0-9.]+)s\)")


def results(text):
    """By test: its verdict, its seconds and why it failed or was skipped."""
    found, said, now = {}, {}, None
    lines = text.split("\n")
    for number, line in enumerate(lines):
        head = re.match(r"=== (?:RUN|CONT|NAME)\s+TestIntegration/(\w+)", line)
        if head:
            now = head.group(1)
        elif re.match(r"=== NAME\s+TestIntegration$", line):
            now = None
        elif "Error Trace:" in line and now:
            said.setdefault(now, []).append(reason(lines[number:number + 400]))
        elif re.match(r"\s+\w+_test\.go:\d+: .*(requires|only|missing|can not)", line) and now:
            said.setdefault(now, []).append(line.split(": ", 1)[1])
        elif re.match(r"\s+sandbox\.go:\d+: error: ", line) and said.get(now, [""])[-1].endswith("exit status 1"):
            said[now][-1] += ", " + line.split(": error: ", 1)[1]
        done = LINE.match(line)
        if done and len(done.group(1)) == 4:
            _, verdict, name, _, more, seconds = done.groups()
            row = found.setdefault(name, {"test": name, "verdict": "pass", "seconds": 0.0, "why": []})
            row["seconds"] += float(seconds)
            if verdict == "FAIL" or (verdict == "SKIP" and row["verdict"] == "pass"):
                row["verdict"] = verdict.lower()
    for name, row in found.items():
        row["why"] = said.get(name, [])
    return found


def reason(lines):
    """What testify prints of an assertion, without the stacks."""
    kept, begun = [], False
    for line in lines:
        if re.match(r"=== |\s+sandbox\.go:|\s+--- |\s+Test:", line) or (begun and "Error Trace:" in line):
            break
        begun = True
        place = re.search(r"(\w+_test\.go:\d+)", line)
        if place and not kept:
            kept.append(place.group(1) + ":")
        elif re.search(r"\.(go|s):\d+|^\s+[\w./*()]+\.[\w.()*]+$|Error Trace:|v0\.\d+\.\d+ ", line):
            continue
        elif line.strip():
            kept.append(line.replace("Error:", "", 1).strip())
    return " ".join(kept)[:2000]


def line_of(row):
    more = NEEDS.get(row["test"], "") if row["verdict"] == "not here" else row["why"][0][:300] if row["why"] and row["verdict"] != "pass" else ""
    return f"{row['verdict']}\t{row['test']}\t{row['seconds']:.1f} s\t{more}".rstrip()


def counted(rows):
    counts = [sum(row["verdict"] == verdict for row in rows) for verdict in ("pass", "fail", "not here")]
    return "{} passed, {} failed, {} not runnable here".format(*counts)
