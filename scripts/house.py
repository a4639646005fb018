#!/usr/bin/env python3
"""Counts what the crates are made of, so that two texts of them can be compared.

    scripts/house.py [--at COMMIT]             prints the counts, and what is longer than it should be
    scripts/house.py [--at COMMIT] --crates    prints functions and lines, a crate a line
    scripts/house.py [--at COMMIT] --clauses   prints the clauses of the public functions, one a line, in the order of their names
    scripts/house.py [--at COMMIT] --long N    prints the clauses of more than N columns, longest first, with their places

Of a commit its files are taken, of none those that stand here. Crates that try or measure others count for nothing.
A clause's columns are those of its longest line; with its lines joined it may have more, and is counted so, too.
An enum is mapped by hand where each arm of a `match`, and there are two at least, gives a variant of another enum.
"""

import argparse
import re
import subprocess
import sys
import tempfile
from collections import Counter
from pathlib import Path

from sources import TOP, crate_of, files, parts_of
from vocabulary import all_words, several_meanings, several_words, used_once

MOST_LINES, MOST_OF_FUNCTION = 400, 40
FOLDERS = {"code": "src/**/*.rt", "specs": "specs/**/*.antt", "proofs": "proofs/**/*.antt"}
EXPORTED = re.compile(r"^pub use (?:[\w:]+::)?(?:\{([^}]*)\}|(\w+(?: as \w+)?));", re.M)
PUBLIC_MODULE = re.compile(r"^pub mod (\w+);", re.M)
VARIANT = r"(?:(?:Some|Ok|Err)\()*(?P<{}>[A-Z]\w*)::[A-Z]\w*\b"
ARM = re.compile(r"^" + VARIANT.format("old") + r"[^=]*=>\s*" + VARIANT.format("new"))


class House:
    """The crates below a folder."""

    def __init__(self, top):
        self.top = top
        self.lines = {what: self.lines_of(pattern) for what, pattern in FOLDERS.items()}
        self.parts = {path: parts_of(path) for path in self.lines["code"]}

    def lines_of(self, pattern):
        return {path: len(path.read_text().splitlines()) for path in files(self.top, pattern, tries=False)}

    def functions(self):
        return [(path, function) for path, (functions, _) in self.parts.items() for function in functions]

    def clauses(self):
        """The clauses with their files: those of functions, and the members of types and traits that stand for proofs alone."""
        for path, (functions, members) in self.parts.items():
            for clause in [clause for function in functions for clause in function.clauses] + [clause for _, clause in members]:
                yield path, clause

    def place(self, path, line):
        return f"{path.relative_to(self.top)}:{line}"


def is_mapped_by_hand(function):
    """Whether a `match` of its body maps an enum to another, a variant to a variant."""
    for at, line in enumerate(function.body):
        if "match " not in line or not line.endswith("{"):
            continue
        indent = len(line) - len(line.lstrip())
        arms = []
        for below in function.body[at + 1 :]:
            depth = len(below) - len(below.lstrip())
            if below.strip() and depth <= indent:
                break
            if depth == indent + 4 and not below.strip().startswith(("}", "//")):
                arms.append(below.strip())
            elif arms:
                arms[-1] += " " + below.strip()
        found = [ARM.match(arm) for arm in arms]
        if len(found) > 1 and all(match and match["old"] != match["new"] for match in found):
            return True
    return False


def widest(clause):
    return max(map(len, clause.lines))


def joined(clause):
    return len(clause.lines[0]) - len(clause.lines[0].lstrip()) + len(clause.text)


def is_of_sorted(clause):
    return clause.text.startswith("requires") and re.search(r"requires sorted\b|\b[iI]s_?[sS]orted\b", clause.text)


def counts(house):
    """The counts, each with what it counts."""
    functions, clauses = house.functions(), [clause for _, clause in house.clauses()]
    words = all_words(house.top)
    once = used_once(house.top, words)
    lines = {what: sum(found.values()) for what, found in house.lines.items()}
    yield "functions", len(functions)
    yield from ((f"lines of {what}", count) for what, count in lines.items())
    yield "lines of code and specs", lines["code"] + lines["specs"]
    yield "words of one equation that stand in one clause and in no proof", len(once)
    yield "of them only rearrange arguments", sum(word.rearranges() for word in once)
    yield "names that several files of specs define", len(several_meanings(words))
    yield "definitions that several words have", len(several_words(words))
    yield "clauses", len(clauses)
    for most in (100, 160):
        yield f"clauses of more than {most} columns", sum(widest(clause) > most for clause in clauses)
        yield f"clauses of more than {most} columns, joined", sum(joined(clause) > most for clause in clauses)
    yield "clauses that require something sorted", sum(bool(is_of_sorted(clause)) for clause in clauses)
    yield "enums mapped by hand", sum(is_mapped_by_hand(function) for _, function in functions)
    yield "impls of From", sum(function.owner.startswith("From<") for _, function in functions)
    for what, found in house.lines.items():
        yield f"files of {what} over {MOST_LINES} lines", sum(count > MOST_LINES for count in found.values())
    yield f"functions over {MOST_OF_FUNCTION} lines", sum(len(function.body) > MOST_OF_FUNCTION for _, function in functions)
    yield "wrong bodies in must-fail", len(files(house.top, "must-fail/*.edit"))
    yield "wrong bodies in wrong", len(files(house.top, "wrong/*.edit"))


def print_counts(house):
    for what, count in counts(house):
        print(f"{what}: {count}")
    for found in house.lines.values():
        for path, count in found.items():
            if count > MOST_LINES:
                print(f"{path.relative_to(house.top)} has {count} lines")
    for path, function in house.functions():
        if len(function.body) > MOST_OF_FUNCTION:
            print(f"{function.called()} has {len(function.body)} lines, {house.place(path, function.line)}")


def print_crates(house):
    functions = Counter(crate_of(house.top, path) for path, _ in house.functions())
    lines = {what: Counter() for what in FOLDERS}
    for what, found in house.lines.items():
        for path, count in found.items():
            lines[what][crate_of(house.top, path)] += count
    for crate in sorted(functions):
        print(crate, functions[crate], "functions,", ", ".join(f"{lines[what][crate]} of {what}" for what in FOLDERS))


def exported(house, crate):
    """What a crate's root makes public: names, and modules with all that is public in them."""
    root = house.top / "crates" / crate / "src/lib.rt"
    text = root.read_text() if root.exists() else ""
    names = ", ".join(many or one for many, one in EXPORTED.findall(text))
    return {name.split(" as ")[0].strip() for name in names.split(",")}, set(PUBLIC_MODULE.findall(text))


def public_clauses(house):
    """The clauses of public functions, and the ghost members of public types, each behind its crate and its name."""
    for path, (functions, members) in house.parts.items():
        crate = crate_of(house.top, path)
        names, modules = exported(house, crate)
        is_open = path.stem in modules

        def is_public(owner):
            return is_open or bool(set(re.findall(r"\w+", owner)[-1:]) & names)

        for function in functions:
            called = f"{crate}::{function.called()}"
            if function.exported or function.public and is_public(function.owner or function.name):
                yield f"{called}: {function.head}"
                yield from (f"{called}: {clause.text}" for clause in function.clauses)
        for owner, clause in members:
            if is_public(owner):
                yield f"{crate}::{owner}: {clause.text}"


def print_long(house, most):
    for path, clause in sorted(house.clauses(), key=lambda found: -widest(found[1])):
        if widest(clause) > most:
            print(f"{widest(clause)} {house.place(path, clause.line)}: {clause.text}")


def told(house, asked):
    if asked.clauses:
        print("\n".join(sorted(public_clauses(house))))
    elif asked.long is not None:
        print_long(house, asked.long)
    elif asked.crates:
        print_crates(house)
    else:
        print_counts(house)


def main():
    parser = argparse.ArgumentParser(description=__doc__, formatter_class=argparse.RawDescriptionHelpFormatter)
    parser.add_argument("--at", metavar="COMMIT")
    which = parser.add_mutually_exclusive_group()
    which.add_argument("--crates", action="store_true")
    which.add_argument("--clauses", action="store_true")
    which.add_argument("--long", type=int, metavar="N")
    asked = parser.parse_args()
    if asked.at is None:
        told(House(TOP), asked)
        return
    with tempfile.TemporaryDirectory(prefix="house-") as room:
        archive = subprocess.run(["git", "-C", TOP, "archive", asked.at, "crates"], stdout=subprocess.PIPE)
        if archive.returncode:
            sys.exit(1)
        subprocess.run(["tar", "x", "-C", room], input=archive.stdout, check=True)
        told(House(Path(room)), asked)


if __name__ == "__main__":
    sys.exit(main())
