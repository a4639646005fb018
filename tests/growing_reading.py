"""A reader of growing texts, written from their definition alone, and its verdict on a text.

Of objects it knows blobs, trees of one file, and commits: the kinds that the tests draw.
"""

from __future__ import annotations

import re
from dataclasses import dataclass, field

from growing_texts import HEAD, PAGE, ROW, page_digests, sha256
from store_files import named

NUMBER = re.compile(rb"0|[1-9][0-9]*")
LONG_NUMBER = re.compile(rb"[0-9]{20}")
DIGEST = re.compile(rb"[0-9a-f]{64}")
TREE = re.compile(rb"100644 ([^\0/\n]+)\0(.{20})", re.S)
PEOPLE = rb"author A <a(?:@x)?> [0-9]+ \+0000\ncommitter A <a(?:@x)?> [0-9]+ \+0000\n\n.*"
COMMIT = re.compile(rb"tree ([0-9a-f]{40})\n((?:parent [0-9a-f]{40}\n)*)" + PEOPLE, re.S)
REF = re.compile(rb"([0-9a-f]{40}) (.+)", re.S)
# what git-check-ref-format(1) keeps out of names, which may have one component here
NO_REF = re.compile(
    rb"(?:^|/)(?:\.|/|$)|\.lock(?:/|$)|\.\.|[\x00-\x20\x7f~^:?*\[\\]|@\{|\.$|^@$|^/"
)


class Refused(Exception):
    """Why a text is refused."""


def want(holds: object, fault: str) -> None:
    if not holds:
        raise Refused(fault)


def number_of(word: bytes, form: re.Pattern = NUMBER) -> int | None:
    """The number below 2^64 that a word of this form writes."""
    number = int(word) if form.fullmatch(word) else 1 << 64
    return number if number < 1 << 64 else None


def fields_of(line: bytes, form: re.Pattern) -> tuple[int, int, bytes]:
    """Two numbers and a digest."""
    words = line.split(b" ", 2)
    want(len(words) == 3, "BadRecord")
    first, second = (number_of(word, form) for word in words[:2])
    want(None not in (first, second) and DIGEST.fullmatch(words[2]), "BadRecord")
    return first, second, bytes.fromhex(words[2].decode())


def table_length(count: int) -> int:
    """How many bytes so many rows and the digests of their pages have."""
    return ROW * count + 32 * -(-ROW * count // PAGE)


@dataclass
class Cursor:
    """A place in a text that ends somewhere."""

    text: bytes
    at: int
    ends: int

    def line(self) -> bytes:
        end = self.text.find(b"\n", self.at, self.ends)
        want(end >= 0, "Truncated")
        line, self.at = self.text[self.at : end], end + 1
        return line

    def body(self, length: int) -> bytes:
        want(length < self.ends - self.at, "Truncated")
        body = self.text[self.at : self.at + length]
        want(self.text[self.at + length] == 10, "BadRecord")
        self.at += length + 1
        return body

    def count(self, word: bytes) -> int:
        front, _, count = self.line().partition(b" ")
        want(front == word and number_of(count) is not None, "BadRecord")
        return int(count)


@dataclass
class Grown:
    """What was read of a growing text."""

    kinds: dict[str, str] = field(default_factory=dict)
    places: dict[bytes, int] = field(default_factory=dict)
    records: list[bytes] = field(default_factory=list)
    tail: int = 0
    runs: list[tuple[int, int, bytes]] = field(default_factory=list)
    refs: list[bytes] = field(default_factory=list)

    def is_of(self, digits: bytes, kind: str) -> bool:
        return self.kinds.get(digits.decode()) == kind

    def want_object(self, kind: str, body: bytes) -> None:
        """Wants an object that may be held, and links that are."""
        if kind == "tree":
            entry = TREE.fullmatch(body)
            want(entry and entry[1] not in (b".", b"..", b".git"), "BadObject")
            want(self.is_of(entry[2].hex().encode(), "blob"), "Dangling")
        elif kind == "commit":
            parts = COMMIT.fullmatch(body)
            want(parts, "BadObject")
            parents = re.findall(rb"parent (.{40})", parts[2])
            linked = [(parts[1], "tree"), *((parent, "commit") for parent in parents)]
            want(all(self.is_of(*link) for link in linked), "Dangling")
        want(kind != "tag", "BadObject")

    def take_record(self, cursor: Cursor) -> None:
        place, line = cursor.at, cursor.line()
        words = line.split(b" ", 2)
        want(len(words) == 3 and words[0] in (b"blob", b"tree", b"commit", b"tag"), "BadRecord")
        want(number_of(words[1]) is not None, "BadRecord")
        want(re.fullmatch(rb"[0-9a-f]{40}", words[2]), "BadRecord")
        body = cursor.body(int(words[1]))
        kind = words[0].decode()
        digits = named(kind, body)
        want(digits.encode() == words[2], "NameMismatch")
        self.want_object(kind, body)
        want(digits not in self.kinds, "DuplicateObject")
        self.kinds[digits] = kind
        self.places[bytes.fromhex(digits)] = place
        self.records.append(line + b"\n" + body + b"\n")

    def take_ref(self, cursor: Cursor) -> None:
        line = cursor.line()
        parts = REF.fullmatch(line)
        want(parts and not NO_REF.search(parts[2]), "BadRef")
        want(self.is_of(parts[1], "commit"), "BadRef")
        want(not self.refs or self.refs[-1][41:] < line[41:], "RefOrder")
        self.refs.append(line)

    def take_segment(self, cursor: Cursor) -> None:
        for _ in range(cursor.count(b"objects")):
            self.take_record(cursor)
        cursor.body(table_length(cursor.count(b"rows")))
        self.tail = cursor.at
        self.runs = [fields_of(cursor.line(), NUMBER) for _ in range(cursor.count(b"runs"))]
        self.refs = []
        for _ in range(cursor.count(b"refs")):
            self.take_ref(cursor)
        want(cursor.line() == b"end", "BadRecord")

    def rows_of(self, text: bytes, run: tuple[int, int, bytes]) -> list[bytes]:
        """The rows of a run, which stands in a text."""
        place, count, digest = run
        want(place >= HEAD and place + table_length(count) <= len(text), "BadRows")
        rows = text[place : place + ROW * count]
        pages = text[place + ROW * count : place + table_length(count)]
        want(pages == page_digests(rows, sha256) and sha256(pages) == digest, "BadRows")
        cut = [rows[at : at + ROW] for at in range(0, len(rows), ROW)]
        want(all(x[:20] < y[:20] for x, y in zip(cut, cut[1:])), "BadRows")
        return cut

    def want_rows(self, text: bytes) -> None:
        rows = [row for run in self.runs for row in self.rows_of(text, run)]
        placed = [name + place.to_bytes(8, "big") for name, place in self.places.items()]
        want(sorted(rows) == sorted(placed), "BadRows")


def read_slot(text: bytes) -> tuple[Cursor, tuple[int, int, bytes]]:
    """Where the segments begin, and what the picked slot says."""
    cursor = Cursor(text, 0, len(text))
    word, _, version = cursor.line().partition(b" ")
    want(word == b"gxstore" and b" " in text[:8], "BadMagic")
    want(version == b"3", "BadVersion")
    want(len(text) >= HEAD, "Truncated")
    pick, first, second = (cursor.body(length) for length in (1, 106, 106))
    slot = fields_of(first if pick == b"a" else second, LONG_NUMBER)
    want(slot[0] <= len(text), "Truncated")
    return cursor, slot


def read(text: bytes) -> Grown:
    """What a growing text holds."""
    cursor, (ends, tail, digest) = read_slot(text)
    cursor.ends = ends
    grown = Grown()
    want(ends >= HEAD, "Truncated")
    grown.take_segment(cursor)
    while cursor.at < ends:
        grown.take_segment(cursor)
    want(grown.tail == tail, "BadRecord")
    want(sha256(text[tail:ends]) == digest, "BadRows")
    grown.want_rows(text[:ends])
    return grown


def verdict(text: bytes) -> str:
    """How many objects and refs a text holds, or why it is refused."""
    try:
        grown = read(text)
    except Refused as fault:
        return f"gx: store: {fault}\n"
    return f"version 3\nobjects {len(grown.records)}\nrefs {len(grown.refs)}\nbytes {len(text)}\n"
