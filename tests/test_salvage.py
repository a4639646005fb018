"""What `gx verify --salvage` makes of damaged stores: a new one verifies, and has the refs whose whole
history can be shown, and each other ref is told with an object that it reaches and that can't be.
"""

from __future__ import annotations

import os
import random
import re
from dataclasses import dataclass
from itertools import islice
from pathlib import Path

import pytest

from growing_reading import read
from growing_texts import GrowingText, Record, nested
from programs import Program, counted
from store_files import NEW, OLD
from test_growing import grown, history

SHOWN = re.compile(rb"([0-9a-f]{40}) [a-z]+ \d+")
LOST = re.compile(rb"(\S+) ([0-9a-f]{40}) (Missing|Damaged|ReadFailed|BadObject|Dangling)")
OTHER_SLOT = b"what was appended last can't be read; saved is what stood before"


def linked(record: Record) -> list[bytes]:
    """The digits that a record's body names."""
    if record.kind == b"tree":
        return [record.body[-20:].hex().encode()]
    return re.findall(rb"^(?:tree|parent) (.{40})$", record.body, re.M)


@dataclass
class Branches:
    """Commits of several parents, with refs, in a growing text of some segments, and what each object
    reaches."""

    text: bytes
    reach: dict[bytes, set[bytes]]


def branches(randoms: random.Random) -> Branches:
    text, commits, reach = GrowingText(), [], {}
    numbers = iter(range(99))
    for _ in range(randoms.randint(1, 4)):
        records: list[Record] = []
        for number in islice(numbers, randoms.randint(2, 9)):
            more, commit = history(number, randoms.choice([*commits, None]))
            records += more
            commits.append(commit)
        for record in records:
            digits = record.name.hex().encode()
            reach[digits] = {digits}.union(*(reach[link] for link in linked(record)))
        names = [b"refs/heads/b%d" % number for number in range(6)]
        text.append(records, {name: randoms.choice(commits) for name in names})
    return Branches(text.text(), reach)


def torn(text: bytes, randoms: random.Random) -> bytes:
    """A text that is cut, or of which a block or some bytes are others."""
    at = randoms.randrange(randoms.choice([11, 226, 226, 226]), len(text))
    size = randoms.choice([16, 512])
    moved = randoms.randrange(226, len(text))
    turned = bytearray(text)
    for place in [at, *(randoms.randrange(226, len(text)) for _ in range(randoms.choice([0, 0, 4])))]:
        turned[place] ^= randoms.randrange(1, 256)
    ways = [
        bytes(turned),
        text[:at],
        (text[:at] + bytes(size) + text[at + size :])[: len(text)],
        (text[:at] + text[moved : moved + size] + text[at + size :])[: len(text)],
    ]
    return randoms.choice([bytes(turned), randoms.choice(ways)])


def shown(gx: Program, store: Path, names: list[bytes]) -> set[bytes]:
    """Those of the names whose objects `gx batch` shows, each asked for."""
    found, rest = set(), names
    while rest:
        done = gx("batch", "--check", store, stdin=b"".join(name + b"\n" for name in rest))
        lines = done.out.splitlines()
        found |= {line[:40] for line in lines if SHOWN.fullmatch(line)}
        rest = rest[len(lines) + 1 :] if done.status else []
    return found


def refs_of(gx: Program, store: Path) -> list[tuple[bytes, bytes]]:
    """The names of refs, and the digits of what they hold."""
    lines = gx.prints("refs", store).splitlines()
    return [(line[41:], line[:40]) for line in lines]


class Salvage:
    """A store that may be damaged, and a new one that it is saved into."""

    def __init__(self, gx: Program, folder: Path):
        self.gx, self.store, self.new = gx, folder / "store", folder / "new"

    def readable(self) -> Path | None:
        """The store by that of its slots that leads to a tail, the picked one first."""
        text = self.store.read_bytes()
        other = self.store.with_suffix(".other")
        other.write_bytes(text[:10] + (b"b" if text[10:11] == b"a" else b"a") + text[11:])
        return next((path for path in (self.store, other) if not self.gx("refs", path).status), None)

    def try_text(self, text: bytes, reach: dict[bytes, set[bytes]]) -> None:
        """Saves what can be read of a text that was one of objects with this reach."""
        self.store.write_bytes(text)
        self.new.unlink(missing_ok=True)
        done = self.gx("verify", "--salvage", self.new, self.store)
        assert self.store.read_bytes() == text
        by = self.readable()
        if by is None:
            assert (done.status, done.out) == (1, b"")
            assert not self.new.exists()
            counted["torn stores of which nothing is saved"] += 1
            return
        assert (OTHER_SLOT in done.err) == (by != self.store)
        refs = refs_of(self.gx, by)
        good = shown(self.gx, by, sorted(reach))
        kept = [ref for ref in refs if reach[ref[1]] <= good]
        assert read(self.new.read_bytes()).refs == [b"%s %s" % (held, name) for name, held in kept]
        self.gx.prints("verify", self.new)
        lost = [LOST.fullmatch(line).groups() for line in done.out.splitlines()]
        assert [line[0] for line in lost] == [ref[0] for ref in refs if ref not in kept]
        for ref, digits, cause in lost:
            assert digits in reach[dict(refs)[ref]]
            if cause == b"Dangling":
                assert not reach[digits] <= good
            else:
                assert digits not in good
        assert done.status == (3 if lost or by != self.store else 0)
        counted["torn stores that are saved"] += 1
        counted["refs that are lost"] += len(lost)


def try_torn(gx: Program, folder: Path, randoms: random.Random, texts: int) -> None:
    salvage = Salvage(gx, folder)
    for number in range(texts):
        if number % 10 == 0:
            whole = branches(randoms)
        salvage.try_text(torn(whole.text, randoms), whole.reach)


def test_torn(gx: Program, tmp_path: Path, randoms: random.Random) -> None:
    """Forty torn stores."""
    try_torn(gx, tmp_path, randoms, 40)


@pytest.mark.long
def test_many_torn(gx: Program, tmp_path: Path, randoms: random.Random) -> None:
    """A thousand of them."""
    try_torn(gx, tmp_path, randoms, 1000)


def test_whole(gx: Program, tmp_path: Path, randoms: random.Random) -> None:
    """A store of which nothing is lost: the new one is what `gx gc` makes of it. One without tables is
    what `gx grow` makes of it."""
    store, new = tmp_path / "store", tmp_path / "new"
    for text, words in ((branches(randoms).text, "gc"), (OLD, "grow"), (NEW, "grow")):
        store.write_bytes(text)
        assert gx.prints("verify", "--salvage", new, store) == b""
        gx.prints(words, store)
        assert new.read_bytes() == store.read_bytes()
        new.unlink()


def test_refused(gx: Program, tmp_path: Path) -> None:
    """The new store isn't there before, nor is it the damaged one, and what has no refs to be saved
    is refused as ever, as a pipe is. Nothing is left of it."""
    store, new = tmp_path / "store", tmp_path / "new"
    os.mkfifo(store)
    assert gx("verify", "--salvage", new, store).err == b"gx: read failed\n"
    store.unlink()
    assert gx("verify", "--salvage", store, store).err == b"gx: read failed\n"
    store.write_bytes(NEW[:-9])
    done = gx("verify", "--salvage", new, store)
    assert (done.status, done.err) == (1, gx("verify", store).err)
    grown(gx, tmp_path, NEW).rename(store)
    text = store.read_bytes()
    assert gx("verify", "--salvage", store, store).err == b"gx: store exists\n"
    store.write_bytes(text[:300])
    assert gx("verify", "--salvage", new, store).err == b"gx: store: Damaged\n"
    assert sorted(path.name for path in tmp_path.iterdir()) == ["store"]
    new.write_bytes(b"")
    assert gx("verify", "--salvage", new, store).err == b"gx: store exists\n"
    assert new.read_bytes() == b""


def test_objects_in_objects(gx: Program, tmp_path: Path) -> None:
    """Of a text whose rows lead into bodies no more is saved than it has."""
    store, new = tmp_path / "store", tmp_path / "new"
    store.write_bytes(nested(300))
    assert gx("verify", "--salvage", new, store).status == 3
    assert new.stat().st_size <= store.stat().st_size
