"""Gives changed commits and tags to `git fsck` and, as the last record of a store, to `gx verify`: they differ just where
docs/DECISIONS.md says so. Each difference has a name here, by what the body has.
"""

from __future__ import annotations

import random
import re
from collections.abc import Callable
from pathlib import Path

import pytest
from bodies import Names, changed, commit_of, tag_of
from growing_texts import Record, record_of
from programs import Done, Program, Word, counted, run_program

AUTHOR = b"A <a@x> 1 +0000"
# what fsck tells of an object that it doesn't take; names that lead nowhere are told otherwise
REFUSED = re.compile(rb"^error(?: in \w+)?:? .*", re.M)
NAME = re.compile(rb"\b[0-9a-f]{40}\b")
PLACE = re.compile(rb"objects/([0-9a-f]{2})/([0-9a-f]{38})")

# who and when of the lines of headers that tell it
PERSON = re.compile(rb"^(?:author|committer|tagger) (.*)$", re.M)
SIGNED = re.compile(rb"> [\s+]+\d+ [+-]\d+\Z")
TIME = re.compile(rb"> (\d+) [+-](\d+)\Z")
TAG = rb"\Aobject .*\ntype .*\ntag .*\n(?:tagger .*\n)?"
# git-check-ref-format(1), of what stands behind refs/tags/
NO_REF = re.compile(rb"\.\.|@\{|[\0-\x20\x7f~^:?*\[\\]|\.lock(?:/|\Z)|(?:\A|/)(?:\.|/|\Z)|\.\Z")


def headers_of(body: bytes) -> bytes:
    return body.partition(b"\n\n")[0]


def people(body: bytes) -> list[bytes]:
    return PERSON.findall(headers_of(body))


def times(body: bytes) -> list[tuple[bytes, bytes]]:
    """The seconds and the digits of the zone, where both are numbers."""
    return [found.groups() for found in map(TIME.search, people(body)) if found]


def has(pattern: bytes) -> Callable[[bytes], bool]:
    return lambda body: re.search(pattern, body) is not None


def names_no_ref(body: bytes) -> bool:
    name = re.match(rb"object .*\ntype .*\ntag (.*)\n", body)
    return name is not None and NO_REF.search(name[1]) is not None


# what fsck alone takes, and what gx alone takes
GIT_ALONE: dict[str, Callable[[bytes], bool]] = {
    "neither message nor the empty line before it": has(rb"\A(?:[^\n]+\n)+\Z"),
    "a tag of a tree, a blob or a tag": has(rb"\Aobject \w+\ntype (?:tree|blob|tag)\n"),
    "digits in upper case": has(rb"\A(?:tree .*\n(?:parent .*\n)*?parent|tree|object) (?=.*[A-F])[0-9a-fA-F]{40}\n"),
    "a `+` or a space before the seconds": lambda body: any(map(SIGNED.search, people(body))),
    "a zone above 1400": lambda body: any(int(zone) > 1400 for _, zone in times(body)),
    "a tag whose name makes no ref": names_no_ref,
    "further headers of a tag": has(TAG + rb"(?!\n)[^\n]"),
}
GX_ALONE: dict[str, Callable[[bytes], bool]] = {
    "a name that begins with `<`": lambda body: any(who.startswith(b"<") for who in people(body)),
    "a zone of other than four digits": lambda body: any(len(zone) != 4 for _, zone in times(body)),
    "zeros before the seconds": lambda body: any(re.match(rb"0\d", when) for when, _ in times(body)),
    "seconds from 2^63 on": lambda body: any(int(when) >= 2**63 for when, _ in times(body)),
    "a NUL in the headers": lambda body: b"\0" in headers_of(body),
}


class Sides:
    """A repository of git with a commit, a tree and a blob, and the same as records."""

    def __init__(self, folder: Path, gx: Program):
        self.folder, self.gx = folder, gx
        self.git("init", "-q", "--bare", ".")
        tree, blob = record_of(b"tree", b""), record_of(b"blob", b"x")
        who = b"tree %s\nauthor %s\ncommitter %s\n\nx\n" % (tree.name.hex().encode(), AUTHOR, AUTHOR)
        self.held = [tree, blob, record_of(b"commit", who)]
        assert [self.add(record) for record in self.held] == [each.name.hex().encode() for each in self.held]
        self.names = Names(*(each.name.hex().encode() for each in (tree, self.held[2], blob)))

    def git(self, *words: Word, given: bytes = b"") -> Done:
        return run_program(["git", "-C", self.folder, *words], given, 900, env=self.gx.environment)

    def add(self, record: Record) -> bytes:
        words = ["hash-object", "-t", record.kind, "--literally", "-w", "--stdin"]
        return self.git(*words, given=record.body).out.strip()

    def refused_by_git(self) -> dict[bytes, bytes]:
        """What fsck tells of those objects that it doesn't take, by their names."""
        told = self.git("fsck", "--full", "--no-dangling", "--no-progress")
        found: dict[bytes, bytes] = {}
        for line in REFUSED.findall(told.out + told.err):
            place = PLACE.search(line)
            for name in [b"".join(place.groups())] if place else NAME.findall(line):
                found.setdefault(name, line)
        return found

    def told_by_gx(self, record: Record) -> bytes:
        """What `gx verify` tells of a store with this record, or nothing."""
        records = [*self.held, record]
        text = b"gxstore 2\nobjects %d\n" % len(records) + b"".join(each.text() for each in records)
        store = self.folder / "store"
        store.write_bytes(text + b"refs 0\nend\n")
        told = self.gx("verify", store)
        return told.err if told.status else b""


def compare(sides: Sides, bodies: dict[bytes, Record]) -> None:
    """Compares what both say of each body; not where it names what isn't there, which is no matter of its form."""
    told, without_name = sides.refused_by_git(), []
    for name, record in bodies.items():
        git, gx = told.get(name, b""), sides.told_by_gx(record)
        if b"Dangling" in gx:
            counted["bodies that name what isn't there"] += 1
            continue
        counted["bodies that git refuses" if git else "bodies that git takes"] += 1
        if bool(git) == bool(gx):
            continue
        side, among = ("gx alone", GX_ALONE) if git else ("git alone", GIT_ALONE)
        why = next((name for name, holds in among.items() if holds(record.body)), None)
        if why:
            counted[f"{side} takes: {why}"] += 1
        else:
            without_name.append(f"{side} takes {record.body!r}\n  git: {git!r}\n  gx: {gx!r}")
    assert not without_name, "\n".join([f"{len(without_name)} differences, as", *without_name[:20]])


@pytest.mark.parametrize("kind", [b"commit", b"tag"])
def test_changed_bodies(kind: bytes, gx: Program, tmp_path: Path, request: pytest.FixtureRequest) -> None:
    chance = random.Random(request.config.getoption("seed") or 1)
    sides = Sides(tmp_path, gx)
    make: Callable[[Names, random.Random], bytes] = commit_of if kind == b"commit" else tag_of
    bodies: dict[bytes, Record] = {}
    for _ in range(5000 if request.config.getoption("long") else 150):
        record = record_of(kind, changed(make(sides.names, chance), chance))
        bodies[record.name.hex().encode()] = record
    added = tmp_path / "added"
    added.mkdir()
    for name, record in bodies.items():
        (added / name.decode()).write_bytes(record.body)
    paths = b"".join(b"%s\n" % bytes(added / name.decode()) for name in bodies)
    done = sides.git("hash-object", "-t", kind, "--literally", "-w", "--stdin-paths", given=paths)
    assert done.out.split() == list(bodies), done.err
    compare(sides, bodies)
