"""The texts of growing stores, written by a hand of its own: what docs and definitions say of them is held to it."""

import hashlib
from collections.abc import Callable, Iterable, Iterator
from dataclasses import dataclass, field

HEAD = 226
ROW = 28
PAGE = 585 * ROW

Digest = Callable[[bytes], bytes]


def sha256(text: bytes) -> bytes:
    """The digest of a growing text."""
    return hashlib.sha256(text).digest()


@dataclass(frozen=True)
class Record:
    """An object: its kind, its name in 20 bytes, and its body."""

    kind: bytes
    name: bytes
    body: bytes

    def text(self) -> bytes:
        return b"%s %d %s\n%s\n" % (self.kind, len(self.body), self.name.hex().encode(), self.body)


@dataclass(frozen=True)
class Run:
    """Where rows begin, how many they are, and the digest of their pages' digests."""

    place: int
    count: int
    digest: bytes

    def line(self) -> bytes:
        return b"%d %d %s\n" % (self.place, self.count, self.digest.hex().encode())


def slot(ends: int, tail: int, digest: bytes) -> bytes:
    """A slot in 106 bytes."""
    return b"%020d %020d %s" % (ends, tail, digest.hex().encode())


UNUSED = slot(0, 0, bytes(32))


def head(pick: bytes, first: bytes, second: bytes) -> bytes:
    """The first 226 bytes."""
    return b"\n".join((b"gxstore 3", pick, first, second, b""))


def page_digests(rows: bytes, digest: Digest) -> bytes:
    """The digests of the pages of rows, one behind the other."""
    return b"".join(digest(rows[at : at + PAGE]) for at in range(0, len(rows), PAGE))


def tail(runs: list[Run], refs: dict[bytes, bytes]) -> bytes:
    """The last part of a segment; refs lead from names to objects' names."""
    lines = [b"runs %d\n" % len(runs), *(run.line() for run in runs), b"refs %d\n" % len(refs)]
    lines += [b"%s %s\n" % (refs[ref].hex().encode(), ref) for ref in sorted(refs)]
    return b"".join(lines) + b"end\n"


@dataclass
class GrowingText:
    """A growing text, and what its next segment needs of it."""

    digest: Digest = sha256
    slots: list[bytes] = field(default_factory=lambda: [UNUSED, UNUSED])
    picked: int = 1
    segments: bytes = b""
    runs: list[Run] = field(default_factory=list)
    refs: dict[bytes, bytes] = field(default_factory=dict)

    def text(self) -> bytes:
        return head(b"ab"[self.picked : self.picked + 1], *self.slots) + self.segments

    def rows_of(self, run: Run) -> bytes:
        at = run.place - HEAD
        return self.segments[at : at + run.count * ROW]

    def append(self, records: Iterable[Record], refs: dict[bytes, bytes]) -> None:
        """Writes a segment behind the end, and picks the other slot. Its run takes in the last one of at most twice its rows."""
        self.refs |= refs
        start = HEAD + len(self.segments)
        held = list(records)
        segment = b"objects %d\n" % len(held)
        rows = []
        for record in held:
            rows.append(record.name + (start + len(segment)).to_bytes(8, "big"))
            segment += record.text()
        while self.runs and rows and self.runs[-1].count <= 2 * len(rows):
            rows += cut_rows(self.rows_of(self.runs.pop()))
        table = b"".join(sorted(rows))
        segment += b"rows %d\n" % len(rows)
        pages = page_digests(table, self.digest)
        if rows:
            self.runs.append(Run(start + len(segment), len(rows), self.digest(pages)))
        segment += table + pages + b"\n"
        last = tail(self.runs, self.refs)
        ends = start + len(segment) + len(last)
        self.segments += segment + last
        self.picked = 1 - self.picked
        self.slots[self.picked] = slot(ends, start + len(segment), self.digest(last))


def cut_rows(rows: bytes) -> Iterator[bytes]:
    """Rows of 28 bytes, one by one."""
    return (rows[at : at + ROW] for at in range(0, len(rows), ROW))


def picked_slot(text: bytes) -> tuple[int, int]:
    """Where a growing text ends, and where its last tail begins."""
    at = 12 if text[10:11] == b"a" else 119
    return int(text[at : at + 20]), int(text[at + 21 : at + 41])


def live_runs(text: bytes) -> list[Run]:
    """The runs that the last tail tells."""
    ends, tail = picked_slot(text)
    lines = text[tail:ends].splitlines()
    rows = (line.split() for line in lines[1 : 1 + int(lines[0].split()[1])])
    return [Run(int(row[0]), int(row[1]), bytes.fromhex(row[2].decode())) for row in rows]


def with_runs(text: bytes, runs: list[Run]) -> bytes:
    """A growing text of one segment without refs, whose tail tells these runs in place of its own."""
    start, last = picked_slot(text)[1], tail(runs, {})
    ends = slot(start + len(last), start, sha256(last))
    return head(b"a", ends, UNUSED) + text[HEAD:start] + last


def nested(count: int) -> bytes:
    """A text whose branch has so many files, of which each has the record of the one before as its body:
    the rows lead into bodies, so this is no growing store."""
    records = [record_of(b"blob", b"x")]
    for _ in range(count - 1):
        records.append(record_of(b"blob", records[-1].text()))
    entries = (b"100644 f%06d\0%s" % (at, record.name) for at, record in enumerate(records))
    tree = record_of(b"tree", b"".join(entries))
    who = b"A <a@x> 1 +0000"
    body = b"tree %s\nauthor %s\ncommitter %s\n\nm\n" % (tree.name.hex().encode(), who, who)
    commit = record_of(b"commit", body)
    front = b"objects %d\n" % (count + 2)
    text = front + records[-1].text() + tree.text() + commit.text()
    places = {each.name: HEAD + text.index(each.text()) for each in [*records, tree, commit]}
    rows = [name + place.to_bytes(8, "big") for name, place in places.items()]
    text += b"rows %d\n" % len(rows)
    table = b"".join(sorted(rows))
    pages = page_digests(table, sha256)
    run = Run(HEAD + len(text), len(rows), sha256(pages))
    last = tail([run], {b"refs/heads/main": commit.name})
    text += table + pages + b"\n"
    ends = slot(HEAD + len(text) + len(last), HEAD + len(text), sha256(last))
    return head(b"a", ends, UNUSED) + text + last


def record_of(kind: bytes, body: bytes) -> Record:
    name = hashlib.sha1(b"%s %d\0" % (kind, len(body)) + body).digest()
    return Record(kind, name, body)


class Lines:
    """Reads a text line by line, from a place on."""

    def __init__(self, text: bytes, at: int):
        self.text, self.at = text, at

    def line(self) -> bytes:
        start, self.at = self.at, self.text.index(b"\n", self.at) + 1
        return self.text[start : self.at - 1]

    def count(self, word: bytes) -> int:
        front, _, count = self.line().partition(b" ")
        assert front == word, front
        return int(count)

    def records(self) -> Iterator[bytes]:
        """The line of each record."""
        for _ in range(self.count(b"objects")):
            line = self.line()
            yield line
            self.at += int(line.split()[1]) + 1


def record_lines(text: bytes) -> Iterator[bytes]:
    """The line of each record of a text of version 2, or of all segments of a growing one."""
    if not text.startswith(b"gxstore 3\n"):
        yield from Lines(text, len(b"gxstore 2\n")).records()
        return
    lines, (ends, _) = Lines(text, HEAD), picked_slot(text)
    while lines.at < ends:
        yield from lines.records()
        rows = ROW * lines.count(b"rows")
        lines.at += rows + 32 * -(-rows // PAGE) + 1
        for word in (b"runs", b"refs"):
            for _ in range(lines.count(word)):
                lines.line()
        assert lines.line() == b"end"
