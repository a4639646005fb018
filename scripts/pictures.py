#!/usr/bin/env python3
"""Draws docs/*.svg: the two graphs by graphviz, and the speed of imports by gnuplot.

    scripts/pictures.py           draws all, and needs Debian's graphviz and gnuplot-nox
    scripts/pictures.py --check   ends with 1 where a picture is of other sources, or docs/layers.dot
                                  has other crates or lines than crates.txt
"""

import hashlib
import re
import subprocess
import sys
from pathlib import Path

TOP = Path(__file__).resolve().parent.parent
DOCS = TOP / "docs"
SOURCES = {
    "layers.svg": ["layers.dot"],
    "meaning.svg": ["meaning.dot"],
    "speed.svg": ["speed.gp", "speed.tsv"],
}


def sum_of(picture):
    """What tells the sources of a picture from others."""
    text = b"".join((DOCS / name).read_bytes() for name in SOURCES[picture])
    return f"<!-- of {hashlib.sha256(text).hexdigest()} -->"


def draw(picture):
    first = SOURCES[picture][0]
    words = ["dot", "-Tsvg", f"docs/{first}"] if first.endswith(".dot") else ["gnuplot", f"docs/{first}"]
    drawn = subprocess.run(words, cwd=TOP, capture_output=True, text=True, check=True).stdout
    (DOCS / picture).write_text(drawn.rstrip("\n") + f"\n{sum_of(picture)}\n")


def crates():
    """Each crate of this repository with those that it stands on, without what these stand on."""
    lines = [line.split(":") for line in (TOP / "crates.txt").read_text().splitlines()]
    lines = [(front.split()[0], behind) for front, behind in lines]
    names = {line[0] for line in lines}
    stands = {line[0]: {name for name in line[1].split() if name in names} for line in lines}

    def below(name):
        return {other for lower in stands[name] for other in {lower} | below(lower)}

    return {name: lower - {other for one in lower for other in below(one)} for name, lower in stands.items()}


def drawn_crates():
    """The crates and lines of docs/layers.dot, and those that it leaves beside."""
    text = (DOCS / "layers.dot").read_text()
    beside = set(re.search(r"^// beside: (.*)$", text, re.M).group(1).split())
    found = {name: set() for name in re.findall(r"^  (\w+) \[label=", text, re.M)}
    for upper, lower in re.findall(r"^  (\w+) -> (.*)$", text, re.M):
        found[upper] |= set(re.findall(r"\w+", lower))
    return found, beside


def faults():
    for picture in SOURCES:
        if not (DOCS / picture).exists() or sum_of(picture) not in (DOCS / picture).read_text():
            yield f"docs/{picture} is of other sources: run scripts/pictures.py"
    stands = crates()
    drawn, beside = drawn_crates()
    for name in sorted((set(stands) - beside) ^ set(drawn)):
        yield f"in crates.txt or in docs/layers.dot alone: {name}"
    for name in sorted(set(drawn) & set(stands)):
        for other in sorted(drawn[name] ^ stands[name]):
            yield f"in crates.txt or in docs/layers.dot alone: {name} on {other}"


def main():
    if "--check" not in sys.argv[1:]:
        for picture in SOURCES:
            draw(picture)
        return
    found = list(faults())
    for fault in found:
        print(fault, file=sys.stderr)
    sys.exit(1 if found else 0)


if __name__ == "__main__":
    main()
