"""Makes the man page and the completions of the program from what its `--help` prints.

    tools/docs manual PROGRAM FOLDER      writes dfsolve.1, and the completions dfsolve.bash, _dfsolve (zsh) and dfsolve.fish, to the folder

`./run install` puts them where a system looks for such files. They say nothing that the help doesn't say, so they
need no upkeep. `tools/check manual` looks whether they are whole.
"""
import os
import re
import subprocess
import sys


class Item:
    """An argument or an option of a command: its spelling, what stands for its value, and what it is for."""

    def __init__(self, spelling, about):
        self.names = re.findall(r"--?[A-Za-z][\w-]*", spelling)
        values = re.findall(r"[<\[]([^>\]]+)[>\]]", spelling)
        self.spelling, self.value, self.about = spelling, values[0] if values else None, about

    def is_path(self):
        """Whether its value ends in the path of a file or a folder."""
        return self.value is not None and re.search(r"(FILE|DIR|PATH)$", self.value) is not None


class Command:
    """A command, by its help."""

    def __init__(self, name, text):
        self.name = name
        self.about = text.split("\n", 1)[0]
        self.usage = re.search(r"^Usage: (.*)$", text, re.M)[1]
        self.arguments, self.options, self.commands = (items(text, it) for it in ("Arguments", "Options", "Commands"))
        self.after = re.findall(r"^(Status|Example): (.*)$", text, re.M)


def items(text, heading):
    """What a list of the help has, each with its spelling and what follows it after two blanks."""
    found = re.search(rf"^{heading}:\n((?:  .*\n?)+)", text, re.M)
    lines = found[1].splitlines() if found else []
    return [Item(*re.split(r"  +", line.strip(), maxsplit=1)) for line in lines]


def command(program, words):
    """The command of these words. Help is told with the status of a command line that asks for no work."""
    ran = subprocess.run(["dfsolve", *words, "--help"], executable=os.path.abspath(program), capture_output=True, text=True, check=False)
    if not ran.stdout.startswith(tuple("ABCDEFGHIJKLMNOPQRSTUVWXYZ")) or ran.stderr:
        sys.exit(f"no help of `dfsolve {' '.join(words)}`: {ran.stderr or ran.stdout}")
    return Command(" ".join(words), ran.stdout)


def commands(program):
    """The program, and its commands but `help`."""
    whole = command(program, [])
    names = [it.spelling for it in whole.commands if it.spelling != "help"]
    return whole, [command(program, [name]) for name in names]


def version(program):
    ran = subprocess.run([program, "--version"], capture_output=True, text=True, check=False)
    return ran.stdout.strip()


def roff(text):
    text = text.replace("\\", "\\e").replace("-", "\\-")
    return "\\&" + text if text[:1] in (".", "'") else text


def man_page(program):
    whole, all_commands = commands(program)
    lines = [f'.TH DFSOLVE 1 "" "{version(program)}" "User Commands"', ".SH NAME", f"dfsolve \\- {roff(whole.about[0].lower() + whole.about[1:])}"]
    lines += [".SH SYNOPSIS"]
    for it in all_commands:
        lines += [f".B {roff(it.usage)}", ".br"]
    lines += [".SH COMMANDS"]
    for it in all_commands:
        lines += [f".SS {roff(it.usage)}", roff(it.about) + "."]
        for item in it.arguments + it.options:
            lines += [".TP", f".B {roff(item.spelling)}", roff(item.about)]
        for heading, text in it.after:
            lines += [".PP", f".I {heading}:", roff(text)]
    lines += [".SH OPTIONS"]
    for item in whole.options:
        lines += [".TP", f".B {roff(item.spelling)}", roff(item.about)]
    return "\n".join(lines) + "\n"


def quoted(text):
    return "'" + text.replace("'", "'\\''") + "'"


def bash(program):
    whole, all_commands = commands(program)
    names = " ".join(it.name for it in all_commands)
    cases = [f"        {it.name}) options={quoted(' '.join(name for item in it.options for name in item.names))} ;;" for it in all_commands]
    valued = sorted({name for it in all_commands for item in it.options if item.value and not item.is_path() for name in item.names})
    return f"""# Completion of dfsolve for bash.
_dfsolve() {{
    local word=${{COMP_WORDS[COMP_CWORD]}} before=${{COMP_WORDS[COMP_CWORD-1]}} options
    if [ "$COMP_CWORD" = 1 ]; then
        mapfile -t COMPREPLY < <(compgen -W {quoted(names + " help " + " ".join(name for it in whole.options for name in it.names))} -- "$word")
        return
    fi
    case $before in
        {"|".join(valued)}) return ;;
    esac
    case ${{COMP_WORDS[1]}} in
        help) options={quoted(names)} ;;
{chr(10).join(cases)}
    esac
    if [[ $word == -* || ${{COMP_WORDS[1]}} == help ]]; then
        mapfile -t COMPREPLY < <(compgen -W "$options" -- "$word")
    else
        mapfile -t COMPREPLY < <(compgen -f -- "$word")
    fi
}}
complete -o filenames -F _dfsolve dfsolve
"""


def bracketed(text):
    return text.replace("\\", "\\\\").replace("[", "\\[").replace("]", "\\]").replace(":", "\\:")


def zsh(program):
    _, all_commands = commands(program)
    listed = " ".join(quoted(f"{it.name}:{bracketed(it.about)}") for it in all_commands)
    cases = []
    for it in all_commands:
        specs = []
        for item in it.options:
            value = f":{item.value}:{'_files' if item.is_path() else ''}" if item.value else ""
            specs += [quoted(f"{name}[{bracketed(item.about)}]{value}") for name in item.names]
        cases.append(f"        {it.name}) _arguments {' '.join(specs)} '*:file:_files' ;;")
    return f"""#compdef dfsolve
# Completion of dfsolve for zsh.
_dfsolve() {{
    local -a commands
    commands=({listed})
    if (( CURRENT == 2 )); then
        _describe command commands
        return
    fi
    local command=$words[2]
    shift words
    (( CURRENT-- ))
    case $command in
        help) _describe command commands ;;
{chr(10).join(cases)}
    esac
}}
_dfsolve "$@"
"""


def fish(program):
    whole, all_commands = commands(program)
    lines = ["# Completion of dfsolve for fish."]
    lines += [f"complete -c dfsolve -n __fish_use_subcommand -f -a {it.name} -d {quoted(it.about)}" for it in all_commands]
    lines += [line for item in whole.options for line in fish_option("__fish_use_subcommand", item)]
    for it in all_commands:
        lines += [line for item in it.options for line in fish_option(f"'__fish_seen_subcommand_from {it.name}'", item)]
    return "\n".join(lines) + "\n"


def fish_option(when, item):
    names = " ".join(("-l " if name.startswith("--") else "-s ") + name.lstrip("-") for name in item.names)
    value = "" if item.value is None else " -r -F" if item.is_path() else " -x"
    return [f"complete -c dfsolve -n {when} {names}{value} -d {quoted(item.about)}"]


MADE = {"dfsolve.1": man_page, "dfsolve.bash": bash, "_dfsolve": zsh, "dfsolve.fish": fish}


def write(program, folder):
    os.makedirs(folder, exist_ok=True)
    for name, made in MADE.items():
        with open(os.path.join(folder, name), "w", encoding="utf-8") as it:
            it.write(made(program))


def main(words):
    if len(words) != 2:
        sys.exit(__doc__)
    write(*words)
