"""What `gx grow` makes of plain stores, of which it holds no body: the text that a writer of its own
makes, the faults that `gx verify` tells, and how much memory that takes.
"""

from __future__ import annotations

import random
import resource
from pathlib import Path

import pytest

from growing_reading import read
from growing_texts import GrowingText, Record
from programs import Done, Program, counted
from store_files import COMMIT, COMMITTED, named
from test_gc_growing import RECORD, plain_of
from test_salvage import branches


def first_of(text: bytes) -> bytes:
    """The text of version 1 of what one of version 2 tells."""
    at = text.index(b"\n", text.index(b"\n") + 1) + 1
    parts = [b"gxstore 1\n", text[10:at]]
    while line := RECORD.match(text, at):
        behind = line.end() + int(line[2]) + 1
        parts += [b"%s %s\n" % (line[1], line[2]), text[line.end() : behind]]
        at = behind
    return b"".join([*parts, text[at:]])


def one_segment(text: bytes) -> bytes:
    """The growing text of one segment that tells what another one does."""
    held, whole = read(text), GrowingText()
    records = []
    for record in held.records:
        line = RECORD.match(record)
        records.append(Record(line[1], bytes.fromhex(line[3].decode()), record[line.end() : -1]))
    pairs = [line.split(b" ", 1) for line in held.refs]
    whole.append(records, {name: bytes.fromhex(digits.decode()) for digits, name in pairs})
    return whole.text()


def try_grown(gx: Program, store: Path, randoms: random.Random) -> None:
    """Both versions of a store become the one growing text."""
    text = branches(randoms).text
    plain, grown = plain_of(text), one_segment(text)
    for given in (plain, first_of(plain)):
        store.write_bytes(given)
        assert gx.prints("grow", store) == b""
        assert store.read_bytes() == grown
        assert not store.with_name(f"{store.name}.new").exists()
    counted["plain stores that are grown"] += 1


def spoiled(text: bytes, randoms: random.Random) -> bytes:
    """A text of which a byte is another one, a line is doubled or gone, or which is cut."""
    at = randoms.randrange(len(text))
    lines = text.split(b"\n")
    line = randoms.randrange(len(lines))
    ways = [
        text[:at] + bytes([text[at] ^ 1 << randoms.randrange(8)]) + text[at + 1 :],
        text[:at],
        b"\n".join(lines[:line] + lines[line + 1 :]),
        b"\n".join(lines[:line] + lines[line : line + 1] + lines[line:]),
        text + b"\n",
    ]
    return randoms.choice(ways)


def try_spoiled(gx: Program, store: Path, randoms: random.Random) -> None:
    """What is no store's text is left alone, with the fault that a reading of the whole tells."""
    plain = plain_of(branches(randoms).text)
    text = spoiled(randoms.choice([plain, first_of(plain)]), randoms)
    store.write_bytes(text)
    told = gx("verify", store)
    done = gx("grow", store)
    assert not store.with_name(f"{store.name}.new").exists()
    if told.status:
        assert done == told
        assert store.read_bytes() == text
        counted[f"plain stores that aren't grown: {told.err.decode().strip()}"] += 1
    elif not text.startswith(b"gxstore 3\n"):
        assert done == Done(0, b"", b"")
        assert store.read_bytes().startswith(b"gxstore 3\n")


@pytest.fixture
def times(request: pytest.FixtureRequest) -> int:
    return 50 if request.config.getoption("long") else 1


def test_grown(gx: Program, tmp_path: Path, randoms: random.Random, times: int) -> None:
    for _ in range(10 * times):
        try_grown(gx, tmp_path / "store", randoms)


def test_spoiled(gx: Program, tmp_path: Path, randoms: random.Random, times: int) -> None:
    for _ in range(60 * times):
        try_spoiled(gx, tmp_path / "store", randoms)


LONGEST = (1 << 64) - 1


@pytest.mark.parametrize("digits", [b"", b" " + named("blob", b"abc").encode()])
def test_longest_record(gx: Program, tmp_path: Path, digits: bytes) -> None:
    """A line that tells of more bytes than any file has is the fault that `gx verify` tells."""
    store = tmp_path / "store"
    version = b"2" if digits else b"1"
    line = b"blob %d%s\nabc\n" % (LONGEST, digits)
    store.write_bytes(b"gxstore %s\nobjects 1\n%srefs 0\nend\n" % (version, line))
    told = gx("verify", store)
    assert (told.status, told.err) == (1, b"gx: store: Truncated\n")
    assert gx("grow", store) == told


LARGE = 24


def test_holds_no_body(gx: Program, tmp_path: Path) -> None:
    """A store of 24 MB is grown where there is room for a few blobs of it, and not for half of them."""
    blobs = [("blob", b"%08d" % number + bytes((1 << 20) - 8)) for number in range(LARGE)]
    objects = [*blobs, *COMMITTED]
    lines = [
        b"%s %d %s\n%s\n" % (kind.encode(), len(body), named(kind, body).encode(), body)
        for kind, body in objects
    ]
    front = b"gxstore 2\nobjects %d\n" % len(objects)
    refs = b"refs 1\n%s refs/heads/main\nend\n" % COMMIT.encode()
    store = tmp_path / "store"
    store.write_bytes(front + b"".join(lines) + refs)
    limit = (12 << 20, 12 << 20)
    gx.prints("grow", store, preexec_fn=lambda: resource.setrlimit(resource.RLIMIT_AS, limit))
    assert gx.prints("verify", store).startswith(b"version 3\nobjects %d\n" % len(objects))
