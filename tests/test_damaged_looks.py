"""Growing stores that are damaged: whatever a file holds, `gx verify` tells what another reader
does, and a question ends, shows no body of another name, and answers as the repository that stands
there, or that it is damaged.
"""

from __future__ import annotations

import hashlib
import random
import re
from collections.abc import Iterator
from itertools import islice
from pathlib import Path

import pytest

from growing_reading import verdict
from growing_texts import GrowingText, Record
from programs import Program, counted
from test_growing import COUNT, damaged, history, mended
from test_looks import asked

SHOWN = re.compile(rb"([0-9a-f]{40}) (blob|tree|commit|tag) (\d+)\n")
DAMAGED = b"gx: store: Damaged\n"
ASKED_OF_DAMAGED = [
    ["archive", "STORE", "main"],
    ["batch", "STORE"],
    ["bundle", "STORE"],
    ["log", "STORE", "main"],
    ["ls", "-r", "STORE", "main"],
    ["refs", "STORE"],
    ["rev-parse", "STORE", "main", "main~1:f0"],
]


def only_named(out: bytes, lines: list[bytes]) -> int:
    """How many objects a batch shows for its lines. Each has its name, and the one asked for."""
    count = at = 0
    for line in lines:
        if at == len(out):
            break
        shown = SHOWN.match(out, at)
        at = shown.end() if shown else out.index(b"\n", at) + 1
        if shown:
            size = int(shown[3])
            text = b"%s %d\0%s" % (shown[2], size, out[at : at + size])
            name = hashlib.sha1(text).hexdigest().encode()
            assert name == shown[1] and name.startswith(line if len(line) > 8 else b"")
            count, at = count + 1, at + size + 1
    return count


OBJECT = re.compile(rb"(?m)^(blob|tree|commit) \d+ ([0-9a-f]{40})$")


def lines_for(text: bytes) -> list[bytes]:
    """Lines of a batch for a growing text and what comes of it."""
    names = sorted({line[2] for line in OBJECT.finditer(text)})
    near = [b"main", b"main:", b"main~1", b"main:f0", b"main:f1", b"b0", b"0" * 40]
    return near + names + [name[:9] for name in names]


def several_runs(randoms: random.Random) -> bytes:
    """A growing text of three segments, with two live runs or three."""
    text, last = GrowingText(), None
    numbers = iter(range(99))
    for count in (randoms.randint(3, 4), 1, randoms.randint(0, 1)):
        records: list[Record] = []
        for number in [next(numbers) for _ in range(count)]:
            more, last = history(number, last)
            records += more
        text.append(records, {b"refs/heads/main": last, b"refs/heads/b0": last})
    return text.text()


def try_shows(gx: Program, store: Path, randoms: random.Random, whole: bytes) -> None:
    """Has objects of the text that was whole shown: what is shown has the name."""
    found = [line.groups() for line in OBJECT.finditer(whole) if line[1] != b"tree"]
    for kind, name in randoms.sample(found, 3):
        done = asked(gx, store, ["show", "STORE", name.decode()], b"")
        if done.status == 0:
            text = b"%s %d\0%s" % (kind, len(done.out), done.out)
            assert hashlib.sha1(text).hexdigest().encode() == name
            counted["bodies of damaged texts"] += 1
        else:
            assert done.err.startswith(b"gx: ") and not done.out


def try_text(gx: Program, store: Path, text: bytes, whole: bytes, randoms: random.Random) -> None:
    """Asks a growing text that may be damaged: what is shown has its name, and where the text is
    whole it answers as the store of version 2 that its export makes."""
    store.write_bytes(text)
    lines = lines_for(whole)
    try_shows(gx, store, randoms, whole)
    plain = store.with_suffix(".plain")
    verified = gx("verify", store, timeout=10)
    assert (verified.out + verified.err).decode() == verdict(text)
    is_whole = verified.status == 0
    if is_whole:
        gx.prints("init", plain)
        gx.prints("import", plain, stdin=gx.prints("export", store))
    for words in ASKED_OF_DAMAGED:
        stdin = b"".join(line + b"\n" for line in lines) if words[0] == "batch" else b""
        done = asked(gx, store, words, stdin)
        assert done.status in (0, 1)
        if words[0] == "batch":
            counted["bodies of damaged texts"] += only_named(done.out, lines)
        if is_whole:
            assert done == asked(gx, plain, words, stdin)
        counted["questions to damaged texts"] += 1
        counted["answers Damaged"] += done.err == DAMAGED
    plain.unlink(missing_ok=True)


def turned(text: bytes, at: int, randoms: random.Random) -> bytes:
    """The text with another byte at a place."""
    return text[:at] + bytes([text[at] ^ randoms.randrange(1, 256)]) + text[at + 1 :]


def try_bytes(gx: Program, store: Path, randoms: random.Random, step: int) -> None:
    """Turns each of so many bytes of a store with two live runs, and cuts the text there."""
    text = several_runs(randoms)
    for at in range(randoms.randrange(step), len(text), step):
        try_text(gx, store, turned(text, at, randoms), text, randoms)
        try_text(gx, store, mended(turned(text, at, randoms)), text, randoms)
        if at > 10:
            try_text(gx, store, text[:at], text, randoms)


def test_some_bytes(gx: Program, tmp_path: Path, randoms: random.Random) -> None:
    """Bytes of a small store turned: no question hangs, and none shows a body of another name."""
    try_bytes(gx, tmp_path / "store", randoms, 23)


@pytest.mark.long
def test_each_byte(gx: Program, tmp_path: Path, randoms: random.Random) -> None:
    """Each byte of a small store turned."""
    try_bytes(gx, tmp_path / "store", randoms, 1)


def try_draws(gx: Program, store: Path, randoms: random.Random, texts: int) -> None:
    """Asks so many texts of several segments with parts changed, cut, doubled or swapped."""
    for whole, text in islice(draws(randoms), texts):
        try_text(gx, store, text, whole, randoms)
        counted["damaged texts that are asked"] += 1


def draws(randoms: random.Random) -> Iterator[tuple[bytes, bytes]]:
    """Texts of several segments, and what comes of each by damage that leaves the first line."""
    while True:
        whole = several_runs(randoms)
        text = damaged(whole, randoms)
        if randoms.random() < 0.3 and len(text) > 12 and COUNT.search(text):
            text = damaged(text, randoms)
        if text.startswith(b"gxstore 3\n"):
            yield whole, mended(text) if randoms.random() < 0.6 else text


def test_damaged(gx: Program, tmp_path: Path, randoms: random.Random) -> None:
    """A hundred damaged texts: no question hangs, and none shows a body of another name."""
    try_draws(gx, tmp_path / "store", randoms, 100)


@pytest.mark.long
def test_many_damaged(gx: Program, tmp_path: Path, randoms: random.Random) -> None:
    """Twenty thousand of them."""
    try_draws(gx, tmp_path / "store", randoms, 20000)
