#!/usr/bin/env python3
"""Compares what the manual, the help, the completions and README.md say of commands and options.

    scripts/commands.py                    prints the commands, as the manual's synopsis has them
    scripts/commands.py --check            ends with 1 where one of them says something else
    GX=PATH scripts/commands.py --check    looks at the help of the program at PATH, too

The manual docs/gx.1 has the list; the sources of the help have to name the same commands, options
and kinds of faults, and each completion the same options of each command.
"""

import os
import re
import subprocess
import sys
from pathlib import Path

TOP = Path(__file__).resolve().parent.parent
# a line that ends with a backslash goes on in the next one
MANUAL = (TOP / "docs" / "gx.1").read_text().replace("\\\n", "")
LINE = TOP / "crates" / "gx_line" / "src" / "command_line"
COMMANDS = (LINE / "commands.rt").read_text()
PAGES = "".join(path.read_text() for path in [LINE / "manual.rt", *sorted((LINE / "manual").iterdir())])
BASH, ZSH = ((TOP / "completions" / name).read_text() for name in ("gx.bash", "_gx"))
README = (TOP / "README.md").read_text()


def shown(text):
    """Text of the manual without what sets its letters."""
    return re.sub(r"\\f[BIR]|\\&", "", text).replace("\\-", "-")


def section(title):
    return re.split(r"^\.SH ", MANUAL.split(f".SH {title}\n", 1)[1], maxsplit=1, flags=re.M)[0]


def synopsis():
    """Each command with its options and its operands, in the manual's order."""
    found = {}
    for line in shown(section("SYNOPSIS")).splitlines():
        words = line.split()
        if words[:1] == ["gx"] and len(words) > 1 and re.fullmatch(r"[a-z-]+", words[1]):
            rest = " ".join(words[2:])
            options = set(re.findall(r"(?<![\w-])--?[a-z][a-z-]*", rest))
            bare = re.sub(r"\[-[^][]*(\[-[^][]*\])?\]", "", rest)
            operands = bare.replace("=", " ").split()
            if words[1] != "help" and not words[1].startswith("-"):
                found[words[1]] = (options, operands)
    return found


def of_all_commands():
    """The options that stand before each command, without their hyphens."""
    heads = re.findall(r"^\.TP\n(.*)$", shown(section("OPTIONS")), re.M)
    return {name for head in heads for name in re.findall(r"--([\w-]+)", head)}


def heads_below():
    """The heads of the manual's part COMMANDS, each with how many lists it is in."""
    depth, lines = 0, section("COMMANDS").splitlines()
    for line, behind in zip(lines, lines[1:]):
        depth += {".RS": 1, ".RE": -1}.get(line, 0)
        if line == ".TP":
            yield depth, re.findall(r"[\w-]+", re.sub(r"^\.[A-Z]+ ", "", shown(behind).replace('"', "")))


def told_below():
    """The commands that the manual's part COMMANDS tells of, each with the options told there."""
    found = {}
    for depth, words in heads_below():
        if depth == 0:
            found[words[0]] = set()
        elif depth == 1:
            found[list(found)[-1]] |= {word for word in words if word.startswith("-")}
    return found


def long_names(options):
    """Options without those of one letter, which stand beside a long one."""
    return {option for option in options if option.startswith("--")}


def named_by_sources():
    """The commands and the options that the sources of the help name."""
    commands = re.findall(r'\b(?:file_)?command\(\s*alloc,\s*"([\w-]+)"', COMMANDS)
    options = set(re.findall(r'\b(?:flag|text)\(\s*alloc,\s*"([\w-]+)"', COMMANDS))
    options |= set(re.findall(r'\.long\("([\w-]+)"\)', COMMANDS))
    return [name for name in commands if name != "gx"], {f"--{name}" for name in options}


def completed_by_bash():
    """The options that bash answers for each command that has some of its own."""
    body = BASH.split("__gx_options() {", 1)[1].split("\n}", 1)[0]
    found = {}
    for names, answers in re.findall(r"^ +([\w| -]+)\) __gx_answer '' \"\$1\" (.*) ;;$", body, re.M):
        for name in names.split("|"):
            found[name.strip()] = set(re.findall(r"--?[\w-]+", answers)) - {"--help"}
    commands = re.search(r"commands=\(([^)]*)\)", BASH).group(1).split()
    return commands, found


def completed_by_zsh():
    body = ZSH.split("_gx_operands_of_command() {", 1)[1].split("\n}", 1)[0]
    for name, words in re.findall(r"^  local -a (\w+)=\((.*?)\)$", body, re.M | re.S):
        body = re.sub(rf"\${name}\b", lambda _, words=words: words, body)
    found = {}
    for names, answers in re.findall(r"^    ([\w| -]+)\)\s(.*?);;$", body, re.M | re.S):
        options = set(re.findall(r"(?<![\w-])--?[a-z][\w-]*(?=[\[,} )])", answers)) - {"--help"}
        for name in names.split("|"):
            found[name.strip()] = options
    listed = ZSH.split("local -a commands=(", 1)[1].split("\n  )", 1)[0]
    return re.findall(r"^ +['\"]([\w-]+):", listed, re.M), found


def kinds_of_help(page, mark):
    """The kinds that a page of the help lists behind a mark."""
    text = PAGES.split(f"const {page}: Page", 1)[1].split("\n};", 1)[0]
    behind = re.search(re.escape(mark) + r".*?KIND is (.*?)(?:\n  gx|\"|\.)", text, re.S).group(1)
    return [word for word in re.findall(r"\w+", behind) if word != "or"]


def kinds_of_manual(title):
    text = re.split(r"^\.S[SH] ", MANUAL.split(f".SS {title}\n", 1)[1], maxsplit=1, flags=re.M)[0]
    return re.findall(r"^\.TP(?: \d+)?\n(\w+)$", text.split("\n.PP\n")[0], re.M)


def told_by_program(gx, command):
    """The options and the operands that the help of a built program shows for a command."""
    text = subprocess.run([gx, command, "--help"], capture_output=True, text=True, check=True).stdout
    usage = re.search(rf"^Usage: gx {command}(.*)$", text, re.M).group(1)
    listed = text.split("\nOptions:\n", 1)[1].split("\n\nOutput", 1)[0]
    options = set(re.findall(r"^ +(?:-\w, )?(--[\w-]+)", listed, re.M)) - {"--help"}
    return options, [word.strip("<>").replace(">...", "...") for word in usage.replace("[OPTIONS]", "").split()]


def differences():
    """What differs, as pairs of two sides and what each says."""
    commands = synopsis()
    names, options = set(commands), {name: long_names(found) for name, (found, _) in commands.items()}
    below = told_below()
    yield "the manual's synopsis and its commands", names, set(below)
    for name in names & set(below):
        yield f"options of {name}: synopsis, its part", options[name], long_names(below[name])
    sources, flags = named_by_sources()
    yield "commands: the manual, the sources of the help", names, set(sources)
    top = of_all_commands()
    yield "options: the manual, the sources of the help", set().union(*options.values()), flags
    for what, text in (
        ("the sources of the help", COMMANDS + PAGES),
        ("bash", BASH.split("\n_gx() {")[1]),
        ("zsh", ZSH.split("\n_gx() {")[1]),
    ):
        found = {name for name in top - {"help"} if re.search(rf"\b{name}\b", text)}
        yield f"options before a command: the manual, {what}", top - {"help"}, found
    for shell, (listed, found) in (("bash", completed_by_bash()), ("zsh", completed_by_zsh())):
        yield f"commands: the manual, {shell}", names, set(listed) - {"help"}
        for name in names:
            yield f"options of {name}: the manual, {shell}", options[name], long_names(found.get(name, set()))
    table = set(re.findall(r"^\| `gx ([a-z][a-z-]*)", README, re.M))
    yield "commands: the manual, README.md", names, table
    for page, mark, title in (
        ("IMPORT", "gx: command N: KIND", "Kinds of commands"),
        ("GX", "gx: revision N: KIND", "Kinds of revisions"),
        ("GX", "gx: store: KIND", "Kinds of store faults"),
    ):
        yield f"{title}: the help, the manual", set(kinds_of_help(page, mark)), set(kinds_of_manual(title))
    gx = os.environ.get("GX")
    for name in names if gx else ():
        told, operands = told_by_program(gx, name)
        yield f"options of {name}: the manual, the program", options[name], told
        yield f"operands of {name}: the manual, the program", commands[name][1], operands


def main():
    if "--check" not in sys.argv[1:]:
        for name, (options, operands) in synopsis().items():
            print(" ".join([name, *sorted(options), *operands]))
        return
    found = [(what, one, other) for what, one, other in differences() if one != other]
    for what, one, other in found:
        print(f"{what}: {' '.join(sorted(one))} / {' '.join(sorted(other))}", file=sys.stderr)
    sys.exit(1 if found else 0)


if __name__ == "__main__":
    main()
