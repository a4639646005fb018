#!/usr/bin/env python3
"""Asks a program that is kept open one thing after the other, each once the answer before has come.

  driver.py REPOSITORY COUNT MIX COMMAND...    COUNT lines, made at random of a bare repository of git's

MIX is `objects`, of which git has all: `contents` and `info`; or `all`: `ls`, `ls -r`, `log` and `rev-parse`, too. COMMAND answers lines as
`git cat-file --batch-command` or `gx batch --command`. Prints the seconds up to the first answer, those from there to the last, the
microseconds for each line, and a checksum of all answers. The same repository gives the same lines.
"""
import subprocess
import sys
import time
from hashlib import sha1
from random import Random


class Lines:
    """Lines that a repository has answers to."""

    def __init__(self, repository, chance):
        self.repository, self.chance = repository, chance
        self.refs = self.git("for-each-ref", "--format=%(refname)")
        self.commits = self.git("rev-list", "--all")
        self.objects = [row.split(b" ")[0] for row in self.git("cat-file", "--batch-all-objects", "--batch-check")]
        some = chance.sample(self.commits, min(50, len(self.commits)))
        self.paths = [commit + b":" + path for commit in some for path in self.git("ls-tree", "-r", "-t", "--name-only", commit) if path[:1] != b'"']

    def git(self, *words):
        return subprocess.run(["git", "-C", self.repository, *words], check=True, capture_output=True).stdout.splitlines()

    def revision(self):
        made = [self.objects, self.objects, self.paths or self.objects, self.refs]
        return self.chance.choice(self.chance.choice(made))

    def object_line(self):
        return self.chance.choice([b"contents ", b"info "]) + self.revision()

    def one(self, mix):
        if mix == "objects" or self.chance.random() < 0.7:
            return self.object_line()
        commit = self.chance.choice(self.commits)
        return self.chance.choice([b"ls " + commit, b"ls -r " + commit, b"log " + commit + b"^!", b"rev-parse " + commit + b"^{tree} " + commit])


def answer(stream):
    """The bytes of an answer: with a text where its line ends with the length of one that is behind it."""
    line = stream.readline()
    fields = line.split()
    if fields[-1:] in ([b"missing"], [b"ambiguous"], [b"unknown"]) or not line.endswith(b"\n"):
        return line
    return line + stream.read(int(fields[-1]) + 1)


def main():
    repository, count, mix, command = sys.argv[1], int(sys.argv[2]), sys.argv[3], sys.argv[4:]
    lines = Lines(repository, Random(count))
    asked = [lines.one(mix) for _ in range(count)]
    digest = sha1()
    begun = time.perf_counter()
    child = subprocess.Popen(command, stdin=subprocess.PIPE, stdout=subprocess.PIPE)
    opened = begun
    for number, line in enumerate(asked):
        child.stdin.write(line + b"\n")
        child.stdin.flush()
        digest.update(child.stdout.readline() if line.startswith(b"info ") else answer(child.stdout))
        if number == 0:
            opened = time.perf_counter()
    ended = time.perf_counter()
    child.stdin.close()
    child.wait()
    each = (ended - opened) / max(count - 1, 1) * 1e6
    print(f"{opened - begun:.3f} s up to the first answer, {ended - opened:.3f} s behind it, {each:.1f} us each, {digest.hexdigest()[:12]}")


if __name__ == "__main__":
    main()
