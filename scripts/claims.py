#!/usr/bin/env python3
"""Compares the claims of docs/ASSURANCE.md with the sources: functions, clauses and definitions.

    scripts/claims.py           prints how many claims each part has
    scripts/claims.py --check   ends with 1 where a claim names what its crates don't have

A part is headed by its crates. Of `Type::name` the last word is looked for, among their functions,
modules, types, names of clauses and definitions; a word of another crate has its name in front.
"""

import re
import sys
from pathlib import Path

TOP = Path(__file__).resolve().parent.parent
PAGE = TOP / "docs" / "ASSURANCE.md"
COMMANDS = set(re.findall(r"^\\fBgx ([a-z]+(?:\\\\-[a-z]+)*)", (TOP / "docs" / "gx.1").read_text(), re.M))


def parts():
    """The parts of the claims: the crates of the heading, and the entries."""
    section = PAGE.read_text().split("\n## Claims, by crate\n", 1)[1].split("\n## ", 1)[0]
    for part in section.split("\n### ")[1:]:
        heading, text = part.split("\n", 1)
        crates = re.findall(r"gx_\w+", heading) or [path.name for path in (TOP / "crates").iterdir()]
        yield heading, crates, re.findall(r"^- (.*(?:\n  .*)*)", text, re.M)


def words_of(crate):
    """What a crate's code and definitions name."""
    folder, found = TOP / "crates" / crate, {crate}
    for path in folder.glob("src/**/*.rt"):
        text = path.read_text()
        found |= set(re.findall(r"\b(?:fn|struct|enum|trait|mod) (\w+)", text))
        found |= set(re.findall(r"\bensures (\w+) \{", text)) | {path.stem}
    for path in folder.glob("specs/**/*.antt"):
        found |= set(re.findall(r"^ *(?:abbrev )?pub (?:record |data )?(\S+)", path.read_text(), re.M))
    return found


def unknown():
    every = {word.replace("\\", "") for word in COMMANDS} | {"Display", "done"}
    for heading, crates, entries in parts():
        known = every.union(*map(words_of, crates))
        for entry in entries:
            for code in re.findall(r"`([\w:]+)`", entry):
                first, *_, last = [*code.split("::"), code.split("::")[-1]]
                there = words_of(first) if first.startswith("gx_") else known
                if last not in there:
                    yield f"{heading}: {code}"


def main():
    if "--check" not in sys.argv[1:]:
        for heading, _, entries in parts():
            print(heading, len(entries))
        return
    found = list(unknown())
    for word in found:
        print(f"claimed in docs/ASSURANCE.md, and not in the sources: {word}", file=sys.stderr)
    sys.exit(1 if found else 0)


if __name__ == "__main__":
    main()
