"""Looks whether the man page and the completions have each command and each option of the program.

    tools/check manual PROGRAM      makes them, and ends with 1 if one of them lacks something, or its shell can't read it
"""
import shutil
import subprocess
import sys
import tempfile

from docs.manual import MADE, commands, quoted, write

SHELLS = {"dfsolve.bash": ["bash", "-n"], "_dfsolve": ["zsh", "-n"], "dfsolve.fish": ["fish", "--no-execute"]}


def bash_answers(folder, words):
    """What bash completes these words to, of which the last is begun."""
    script = f'. "{folder}/dfsolve.bash"; COMP_WORDS=({" ".join(map(quoted, words))}); COMP_CWORD={len(words) - 1}; _dfsolve; printf "%s\\n" "${{COMPREPLY[@]}}"'
    return subprocess.run(["bash", "-c", script], check=True, capture_output=True, text=True).stdout.split()


def faults(program):
    """What the man page and the completions lack."""
    whole, all_commands = commands(program)
    found = []
    with tempfile.TemporaryDirectory() as folder:
        write(program, folder)
        for name, words in SHELLS.items():
            if shutil.which(words[0]) and subprocess.run([*words, f"{folder}/{name}"], check=False).returncode != 0:
                found.append(f"{name} can't be read by {words[0]}")
        texts = {name: open(f"{folder}/{name}", encoding="utf-8").read().replace("\\-", "-") for name in MADE}
        for it in all_commands:
            wanted = [it.name, *(name.lstrip("-") for item in it.options for name in item.names if name.startswith("--"))]
            found += [f"{file} lacks {word} of {it.name}" for file, text in texts.items() for word in wanted if word not in text]
            if bash_answers(folder, ["dfsolve", it.name]) != [it.name]:
                found.append(f"bash doesn't complete {it.name}")
            options = sorted(name for item in it.options for name in item.names if name.startswith("--"))
            if sorted(bash_answers(folder, ["dfsolve", it.name, "--"])) != options:
                found.append(f"bash doesn't complete the options of {it.name}")
    return found


def main(words):
    if len(words) != 1:
        sys.exit(__doc__)
    found = faults(words[0])
    print("\n".join(found) if found else "the man page and three completions have each command and each option")
    return 1 if found else 0
