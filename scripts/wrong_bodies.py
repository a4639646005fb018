#!/usr/bin/env python3
"""Looks after the wrong bodies: what each came to, over what, and which have to be tried anew.

A wrong body is an edit of the code that the proof of its crate has to refuse. Those of gx_model
stand in its must-fail/ and are tried by `rt ci`. All others stand in crates/NAME/wrong/, and
docs/tried.tsv has a line for each: what it came to, and checksums of what that rests on: the
contracts of its crate, the definitions that these reach in it and in crates below, and the edit. A
line whose checksums aren't today's is stale.

    scripts/wrong_bodies.py          prints of each crate how many stand: in must-fail/, named by a
                                     request, others; and how many are stale
    scripts/wrong_bodies.py --check  ends with 1 where a text doesn't stand once, or a document
                                     tells something else
    scripts/wrong_bodies.py --stale  prints those that are stale, and what changed
    scripts/wrong_bodies.py --try N [WORD..]
                                     tries those that are stale, and those that a request names of
                                     a crate whose code changed, or those of the crates or of the
                                     CRATE/NAMEs that are given, N crates at once; writes their
                                     lines, and how many stand
    scripts/wrong_bodies.py --gate   tries, over the libraries that `rt ci` left, those without a
                                     line over their crate's contracts of today, those that a
                                     request names where more than a proof changed, and five that
                                     the commit's name picks; ends with 1 where one isn't refused,
                                     or comes to something else than its line has
"""

import argparse
import os
import random
import re
import resource
import subprocess
import sys
from collections import Counter
from concurrent.futures import ThreadPoolExecutor
from dataclasses import asdict, dataclass, fields
from pathlib import Path
from queue import SimpleQueue

from contracts import Contracts, checksum
from sources import TOP
from wrong_trials import BAD, LIMIT, REFUSED, Edit, Graph, try_edits

TABLE = TOP / "docs" / "tried.tsv"
PAGE = TOP / "docs" / "WRONG_BODIES.md"
HEAD = "# What each wrong body came to, and over what: docs/WRONG_BODIES.md tells of it."
PICKED = 5
# what a check of a large crate takes where all its wrong bodies are in it, in bytes: of gx_cli 8.5 GB
MEMORY = 7 << 30


@dataclass(frozen=True)
class Line:
    """What a wrong body came to, and checksums of what that rests on."""

    crate: str
    name: str
    named: str
    contracts: str
    definitions: str
    below: str
    edit: str
    code: str
    verdict: str
    commit: str

    def differs(self, other, columns):
        """Which of these columns another line has otherwise."""
        return [name for name in columns if getattr(self, name) != getattr(other, name)]


COLUMNS = [field.name for field in fields(Line)]
RESTS_ON = ("contracts", "definitions", "below", "edit")


def read_lines():
    """The lines of the table by crate and name."""
    rows = [row.split("\t") for row in TABLE.read_text().splitlines() if not row.startswith("#")]
    assert rows[0] == COLUMNS, f"{TABLE} has other columns"
    return {(row[0], row[1]): Line(*row) for row in rows[1:]}


def write_lines(lines):
    rows = [COLUMNS, *(list(asdict(lines[key]).values()) for key in sorted(lines))]
    TABLE.write_text("\n".join([HEAD, *("\t".join(row) for row in rows)]) + "\n")


def path_of(key):
    return TOP / "crates" / key[0] / "wrong" / f"{key[1]}.edit"


def edits_below(pattern):
    return [Edit(path) for path in sorted(TOP.glob(pattern))]


class Tree:
    """The wrong bodies as they stand, with the lines that today's texts would have."""

    def __init__(self):
        self.graph, self.contracts = Graph(), Contracts(TOP)
        self.edits = {(it.crate, it.name): it for it in edits_below("crates/*/wrong/*.edit")}
        self.lines, self.named, self.sums = read_lines(), told_by_page()[1], {}

    def today(self, key, verdict="", commit=""):
        """The line of a wrong body over today's texts."""
        crate = key[0]
        if crate not in self.sums:
            self.sums[crate] = (*self.contracts.checksums(crate), self.contracts.code(crate))
        *sums, code = self.sums[crate]
        named = "named" if key in self.named else "-"
        return Line(*key, named, *sums, checksum([self.edits[key].text]), code, verdict, commit)

    def changed(self, key):
        """What differs from the line of a wrong body: names of its columns, or that it has none."""
        line = self.lines.get(key)
        return self.today(key).differs(line, RESTS_ON) if line else ["no line"]

    def stale(self):
        found = {key: self.changed(key) for key in self.edits}
        return {key: changed for key, changed in found.items() if changed}

    def moved(self):
        """Those that a request names whose crate's code, or what it reaches, is another now."""
        named = self.named & self.lines.keys() & self.edits.keys()
        columns = (*RESTS_ON, "code")
        return {key for key in named if self.today(key).differs(self.lines[key], columns)}


def say(text):
    print(text, file=sys.stderr, flush=True)


def figures(tree, stale, more=""):
    held, below = len(tree.edits) - len(stale), sum(it == ["below"] for it in stale.values())
    say(
        f"wrong bodies: {held} held, {len(stale)} stale,"
        f" {below} of them by a definition below alone{more}"
    )


def commit_of(crate):
    """The commit that last changed a crate."""
    parts = [f"crates/{crate}/{part}" for part in ("src", "specs", "proofs")]
    return printed("git", "log", "-1", "--format=%h", "--abbrev=8", "--", *parts)


def printed(*words):
    done = subprocess.run(words, cwd=TOP, stdout=subprocess.PIPE, text=True, check=True)
    return done.stdout.strip()


def make_libraries(tree, crates, is_gate):
    """Has the libraries below crates built. Behind `rt ci` they stand, and have no stamp."""
    below = dict.fromkeys(name for crate in crates for name in tree.graph.below(crate))
    stamps = [tree.graph.library(name).parent / "stamp" for name in below]
    if is_gate and not any(stamp.exists() for stamp in stamps):
        return
    for name in below:
        folder = TOP / "crates" / name
        subprocess.run(["rt", "lib", "--jobs", "1"], cwd=folder, stdout=sys.stderr, check=True)


def tried(tree, keys, at_once, is_gate=False):
    """Tries wrong bodies of several crates at once: what some came to, and why, as it is known."""
    crates = sorted({crate for crate, _ in keys})
    make_libraries(tree, crates, is_gate)
    results = SimpleQueue()

    def try_crate(crate):
        try:
            for found in try_edits(tree.graph, crate, [tree.edits[key] for key in keys_of(crate)]):
                results.put({(crate, name): told for name, told in found.items()})
        finally:
            results.put(None)

    def keys_of(crate):
        return sorted(key for key in keys if key[0] == crate)

    with ThreadPoolExecutor(at_once) as pool:
        runs = [pool.submit(try_crate, crate) for crate in crates]
        for _ in runs:
            yield from iter(results.get, None)
        for run in runs:
            run.result()


def most_at_once():
    """As many checks as there are processors, where each may take its share of memory."""
    told = Path("/proc/meminfo").read_text()
    free = int(re.search(r"^MemAvailable: +(\d+) kB$", told, re.M)[1]) * 1024
    return max(1, min(len(os.sched_getaffinity(0)), free // MEMORY))


def minutes():
    used = resource.getrusage(resource.RUSAGE_CHILDREN)
    return f"{(used.ru_utime + used.ru_stime) / 60:.1f} processor minutes"


def asked(tree, words):
    """The wrong bodies of crates or of CRATE/NAMEs."""
    found = set()
    for word in words:
        meant = {key for key in tree.edits if word in (key[0], "/".join(key))}
        if not meant:
            sys.exit(f"there is no wrong body {word}")
        found |= meant
    return found


def try_them(tree, at_once, words):
    keys = asked(tree, words) if words else tree.stale().keys() | tree.moved()
    kinds = Counter()
    for told in tried(tree, keys, at_once):
        # one that can't be read tells nothing, and gets no line
        judged = {key: kind for key, (kind, _) in told.items() if kind != BAD}
        new = {key: tree.today(key, kind, commit_of(key[0])) for key, kind in judged.items()}
        for key, (kind, why) in sorted(told.items()):
            print(f"{kind} {'/'.join(key)}: {why[:200]}", flush=True)
            kinds[kind] += 1
        # another run may have written lines meanwhile
        tree.lines = read_lines() | new
        write_lines({key: line for key, line in tree.lines.items() if path_of(key).exists()})
    write_counts()
    figures(tree, tree.stale(), f"; {sum(kinds.values())} tried, {minutes()}")
    return 0 if kinds.keys() <= {REFUSED, LIMIT} else 1


def picks(tree, commit):
    """Those that the gate tries again: where more than a proof changed, and by a commit's name."""
    others = sorted((tree.edits.keys() & tree.lines.keys()) - tree.moved())
    return tree.moved() | set(random.Random(commit).sample(others, min(PICKED, len(others))))


def gate(tree):
    stale = tree.stale()
    lacking = {key for key, changed in stale.items() if changed != ["below"]}
    keys, differ = lacking | picks(tree, printed("git", "rev-parse", "HEAD")), 0
    for told in tried(tree, keys, most_at_once(), is_gate=True):
        for key, (kind, why) in sorted(told.items()):
            # what is stale may come to either
            wanted = (REFUSED, LIMIT) if key in lacking else (tree.lines[key].verdict,)
            differ += kind not in wanted
            more = "" if kind in wanted else f", in place of {' or '.join(wanted)}: {why[:300]}"
            say(f"{'/'.join(key)}: {kind}{more}")
    figures(
        tree,
        stale,
        f"; {len(keys)} tried, {len(lacking)} of them without a line of today's text,"
        f" {differ} otherwise; {minutes()}",
    )
    return 1 if differ else 0


def standing():
    """How many stand in each crate: in must-fail/, named by a request, and others."""
    names, counts = told_by_page()[1], {}
    for path in sorted(TOP.glob("crates/*/*/*.edit")):
        crate, folder = path.parts[-3:-1]
        column = 0 if folder == "must-fail" else 1 if (crate, path.stem) in names else 2
        counts.setdefault(crate, [0, 0, 0])[column] += 1
    return counts


def write_counts():
    """Has the table of the page tell how many stand."""
    rows = [" | ".join([f"| `{crate}`", *map(str, it)]) for crate, it in standing().items()]
    table = re.compile(r"(?<=^\|---\|---\|---\|---\|\n)(?:\| `.*\n)+", re.M)
    PAGE.write_text(table.sub("".join(f"{row} |\n" for row in rows), PAGE.read_text()))


def told_by_page():
    """What the table of the page tells, by crate, and the crates and names that its list has."""
    text = PAGE.read_text()
    rows = re.findall(r"^\| `(\w+)` \| (\d+) \| (\d+) \| (\d+) \|$", text, re.M)
    names = set()
    for crate, told in re.findall(r"^- `(gx\w*)`: ((?:.|\n(?=  ))+)$", text, re.M):
        names |= {(crate, name) for name in re.findall(r"`(\w+)`", told)}
    return {crate: [int(it) for it in counts] for crate, *counts in rows}, names


def disagreements():
    """What isn't as it has to be, of the edits, of the table and of the page."""
    edits = {(it.crate, it.name) for it in edits_below("crates/*/wrong/*.edit")}
    lines, (counts, names) = read_lines(), told_by_page()
    for edit in edits_below("crates/*/*/*.edit"):
        why = edit.misfit(TOP / "crates" / edit.crate)
        if why:
            yield f"{edit.path.relative_to(TOP)}: {why}"
    for key, line in lines.items():
        if key not in edits:
            yield f"docs/tried.tsv has {'/'.join(key)}, which isn't there"
        if line.verdict not in (REFUSED, LIMIT):
            yield f"docs/tried.tsv: {'/'.join(key)} came to {line.verdict}"
        if (line.named == "named") != (key in names):
            yield f"docs/tried.tsv and the page differ on whether {'/'.join(key)} is named"
    for key in sorted(names - edits):
        yield f"docs/WRONG_BODIES.md names {'/'.join(key)}, which isn't there"
    for crate, stand in standing().items():
        if counts.get(crate) != stand:
            yield f"{crate}: docs/WRONG_BODIES.md tells {counts.get(crate)}, and {stand} stand"


def check():
    found = list(disagreements())
    for it in found:
        say(it)
    return 1 if found else 0


def tell(tree, is_asked_for_stale):
    stale = tree.stale()
    by_crate = Counter(crate for crate, _ in stale)
    if is_asked_for_stale:
        for key, changed in sorted(stale.items()):
            print(f"{'/'.join(key)}: {', '.join(changed)}")
    else:
        for crate, counts in standing().items():
            print(crate, *counts, by_crate[crate])
    figures(tree, stale)
    return 0


def main():
    form = argparse.RawDescriptionHelpFormatter
    parser = argparse.ArgumentParser(description=__doc__, formatter_class=form)
    which = parser.add_mutually_exclusive_group()
    for flag in ("--check", "--stale", "--gate"):
        which.add_argument(flag, action="store_true")
    which.add_argument("--try", type=int, metavar="N", dest="at_once")
    parser.add_argument("words", nargs="*", metavar="WORD")
    given = parser.parse_args()
    if given.check:
        return check()
    tree = Tree()
    if given.at_once:
        return try_them(tree, given.at_once, given.words)
    return gate(tree) if given.gate else tell(tree, given.stale)


if __name__ == "__main__":
    sys.exit(main())
