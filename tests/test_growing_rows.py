"""The worked rows on growing texts are as a writer gives them that knows nothing of the definitions."""

import re
from pathlib import Path

from growing_texts import GrowingText, Record

ROWS = Path(__file__).parent.parent / "crates/gx_growing/specs/GrowingRows.antt"
KINDS = [b"blob", b"tree", b"commit", b"tag"]


def plain_digest(text: bytes) -> bytes:
    """The digest of the rows: thirty bytes 0x11, the length modulo 256, and the last byte."""
    return bytes([17] * 30 + [len(text) % 256, text[-1] if text else 0])


def record(kind: bytes, body: bytes) -> Record:
    """An object, under the name that it has in the rows."""
    last = body[-1] if body else 0
    return Record(kind, bytes([17] * 17 + [KINDS.index(kind), len(body) % 256, last]), body)


def lines_of(name: str) -> bytes:
    """What a list of lines is as a text."""
    text = re.search(rf"^{name} =\n(.*?)\n\n", ROWS.read_text(), re.S | re.M)[1]
    lines = re.findall(r"^    (?:∷ )?(table_of \(.*?\[\]\)|codes \"[^\"]*\"|\[\])", text, re.S | re.M)
    assert lines[-1] == "[]", f"{name} isn't a list of lines"
    return b"".join(bytes_of(line) + b"\n" for line in lines[:-1])


def bytes_of(line: str) -> bytes:
    codes = re.findall(r'codes "([^"]*)"', line)
    if line.startswith("table_of"):
        return b"".join(map(bytes.fromhex, codes))
    return "".join(codes).encode()


def slot_of(name: str) -> bytes:
    return bytes_of(re.search(rf"^slot_of_{name} = (.*)$", ROWS.read_text(), re.M)[1])


def test_rows_are_as_another_writer_gives_them() -> None:
    tree = record(b"tree", b"")
    author = b"author A <a@x> 1 +0000\ncommitter A <a@x> 1 +0000\n\nm"
    commit = record(b"commit", b"tree %s\n%s" % (tree.name.hex().encode(), author))
    store = GrowingText(plain_digest)

    store.append([record(b"blob", b"v1\n"), tree, commit], {b"refs/heads/main": commit.name})
    assert store.segments == lines_of("first_part")
    assert store.slots[0] == slot_of("first")

    store.append([record(b"blob", b"v2\n+")], {b"refs/heads/next": commit.name})
    assert [run.count for run in store.runs] == [3, 1]
    assert store.segments == lines_of("first_part") + lines_of("second_part")
    assert store.slots == [slot_of("first"), slot_of("second")]

    store.append([record(b"blob", b"v3\n++")], {})
    assert [run.count for run in store.runs] == [5]
    parts = ["first_part", "second_part", "third_part"]
    assert store.segments == b"".join(map(lines_of, parts))
    assert store.slots == [slot_of("third"), slot_of("second")]


def test_empty_text_is_as_another_writer_gives_it() -> None:
    plain, true = GrowingText(plain_digest), GrowingText()
    for store in plain, true:
        store.append([], {})
    assert plain.segments == true.segments == lines_of("nothing")
    assert plain.slots[0] == slot_of("nothing")
    digest = re.search(r'^tail_digest = unhex \(codes "([0-9a-f]{64})"\)$', ROWS.read_text(), re.M)[1]
    assert true.slots[0].endswith(digest.encode())
    assert true.slots[0] == bytes_of(re.search(r"^empty_slot = (.*)$", ROWS.read_text(), re.M)[1])
    assert len(true.text()) == 262
