#!/usr/bin/env python3
"""Writes revisions to standard output, one a line, for `gx batch` and for `git cat-file --batch`.

  questions.py REPOSITORY COUNT    COUNT revisions of a bare repository of git's

They are object names, whole, cut short and ambiguous, in either case of digits; refs by whole and by short names; steps to parents, commits and trees; paths of
files, directories and submodules of any commit, as their own bytes, some with a slash behind; and of each kind some that give nothing. Some lines end with CR LF.
The same repository gives the same lines.
"""
import subprocess
import sys
from collections import Counter
from random import Random

LEAST_DIGITS = 4


def git(*words):
    return subprocess.run([b"git", b"-C", repository, *words], check=True, capture_output=True).stdout


def lines_of(*words):
    return git(*words).splitlines()


def paths_of(revision):
    """The paths below a revision, with those of directories and submodules."""
    return [row.split(b"\t", 1)[1] for row in git(b"ls-tree", b"-r", b"-t", b"-z", revision).split(b"\0") if row]


def ambiguous_among(names):
    """The shortest digits that begin several names."""
    found = Counter(name[:LEAST_DIGITS] for name in names)
    return sorted(digits for digits, count in found.items() if count > 1)


class Questions:
    def __init__(self, random):
        self.random = random
        self.refs = lines_of(b"for-each-ref", b"--format=%(refname)")
        self.commits = lines_of(b"rev-list", b"--all")
        self.objects = sorted(lines_of(b"cat-file", b"--batch-all-objects", b"--batch-check=%(objectname)"))
        self.ambiguous = ambiguous_among(self.objects)
        self.paths = {}

    def a_ref(self):
        ref = self.random.choice(self.refs)
        short = ref.split(b"/", 2)[-1]
        return ref if self.refs_named(short) > 1 else self.random.choice([ref, short])

    def refs_named(self, short):
        return sum(ref.split(b"/", 2)[-1] == short for ref in self.refs)

    def a_path(self):
        """A path of one of fifty commits."""
        if len(self.paths) < 50:
            commit = self.random.choice(self.commits)
            self.paths[commit] = paths_of(commit)
        commit = self.random.choice(list(self.paths))
        return commit + b":" + (self.random.choice(self.paths[commit]) if self.paths[commit] else b"")

    def a_slashed_path(self):
        """A path with a slash behind it, which only a directory may have, and only one."""
        return self.a_path() + self.random.choice([b"/", b"/", b"/", b"//", b"/."])

    def a_name(self):
        name = self.random.choice(self.objects)
        return name if self.random.random() < 0.9 else name.upper()

    def a_step(self):
        steps = [b"~%d" % self.random.randrange(12), b"^", b"^2", b"^0", b"^{tree}", b"^{commit}", b"^{}", b"^{blob}", b":"]
        return self.a_ref() + self.random.choice(steps)

    def a_cut_name(self):
        """Enough of a name's digits that no other begins so, or nearly."""
        return self.a_name()[:self.random.randrange(12, 40)]

    def nothing(self):
        absent = [b"nope", b"refs/heads/nope", b"", b"a..b", b"-x", b"%040x" % self.random.randrange(2**160), self.a_ref() + b":nope/nope", self.a_ref() + b"~100000000"]
        return self.random.choice(absent)

    def some_ambiguous(self):
        return self.random.choice(self.ambiguous) if self.ambiguous else self.nothing()

    def one(self):
        kinds = [self.a_path] * 8 + [self.a_slashed_path] + [self.a_name] * 4 + [self.a_step] * 3 + [self.a_ref, self.a_cut_name, self.nothing, self.some_ambiguous]
        asked = self.random.choice(kinds)()
        asked = self.nothing() if b"\n" in asked else asked
        return asked + self.random.choice([b"\r", b"\r", b"\r\r"]) if self.random.random() < 0.05 else asked


repository, count = sys.argv[1].encode(), int(sys.argv[2])
questions = Questions(Random(count))
for _ in range(count):
    sys.stdout.buffer.write(questions.one() + b"\n")
