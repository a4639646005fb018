"""Growing stores whose parts lie, each with digests that fit: a question ends, in little memory, and
what it shows are bodies of their names and refs that a store can have.
"""

from __future__ import annotations

import hashlib
import re
from collections.abc import Callable, Iterable
from pathlib import Path

import pytest

from growing_reading import NO_REF, REF
from growing_texts import HEAD, ROW, Record, Run, head, page_digests, sha256, slot, tail
from programs import Done, Program, counted, run_program
from test_damaged_looks import only_named

PERSON = b"author A <a@x> 1 +0000\ncommitter A <a@x> 1 +0000\n\nm"
MEMORY = 256 << 10  # KiB
UNUSED = slot(0, 0, bytes(32))


def record(kind: bytes, body: bytes) -> Record:
    return Record(kind, hashlib.sha1(b"%s %d\0%s" % (kind, len(body), body)).digest(), body)


def tree(*entries: tuple[bytes, bytes, bytes]) -> Record:
    return record(b"tree", b"".join(b"%s %s\0%s" % entry for entry in entries))


def commit(tree: bytes, *parents: bytes) -> Record:
    lines = [b"tree %s\n" % tree.hex().encode()]
    lines += [b"parent %s\n" % parent.hex().encode() for parent in parents]
    return record(b"commit", b"".join(lines) + PERSON)


def tag(name: bytes, kind: bytes = b"commit") -> Record:
    body = b"object %s\ntype %s\ntag v\ntagger A <a@x> 1 +0000\n\nm"
    return record(b"tag", body % (name.hex().encode(), kind))


BLOB, OTHER = record(b"blob", b"hello\n"), record(b"blob", b"world\n")
BELOW = tree((b"100644", b"f", BLOB.name))
TREE = tree((b"40000", b"d", BELOW.name), (b"100644", b"g", OTHER.name))
FIRST = commit(BELOW.name)
LAST = commit(TREE.name, FIRST.name)
TAG = tag(LAST.name)
HELD = [BLOB, OTHER, BELOW, TREE, FIRST, LAST, TAG]
REFS = {b"refs/heads/main": LAST.name, b"refs/tags/v": TAG.name}
Rows = list[tuple[bytes, int]]


def lying(
    records: list[Record] = HELD,
    refs: dict[bytes, bytes] = REFS,
    rows: Callable[[Rows], Rows] = lambda rows: rows,
    runs: Callable[[Run], list[Run]] = lambda run: [run],
    last: Callable[[bytes], bytes] = lambda text: text,
    picked: Callable[[int, int, bytes], bytes] = slot,
) -> bytes:
    """A text of one segment. Each part may be changed before what stands behind it is made of it."""
    segment, places = b"objects %d\n" % len(records), {}
    for each in records:
        places.setdefault(each.name, HEAD + len(segment))
        segment += each.text()
    told = [name + place.to_bytes(8, "big") for name, place in rows(sorted(places.items()))]
    segment += b"rows %d\n" % len(told)
    table, start = b"".join(told), HEAD + len(segment)
    pages = page_digests(table, sha256)
    segment += table + pages + b"\n"
    behind = last(tail(runs(Run(start, len(told), sha256(pages))), refs))
    begins = HEAD + len(segment)
    return head(b"a", picked(begins + len(behind), begins, sha256(behind)), UNUSED) + segment + behind


def of_tree(made: Record, *below: Record) -> bytes:
    """A text whose main has a tree."""
    top = commit(made.name, FIRST.name)
    return lying([*HELD, *below, made, top], REFS | {b"refs/heads/main": top.name})


def of_commit(body: bytes) -> bytes:
    made = record(b"commit", body)
    return lying([*HELD, made], REFS | {b"refs/heads/main": made.name})


def with_refs(*lines: bytes, count: bytes | None = None) -> bytes:
    """A text with these lines of refs, of which DIGITS is the last commit's."""
    number = b"%d" % len(lines) if count is None else count
    digits = LAST.name.hex().encode()
    told = b"".join(line.replace(b"DIGITS", digits) + b"\n" for line in lines)
    return lying(last=lambda text: text.partition(b"refs ")[0] + b"refs %s\n%send\n" % (number, told))


def without(gone: Record) -> bytes:
    return lying([each for each in HELD if each is not gone])


def in_place(old: Record, line: bytes, body: bytes) -> bytes:
    """A text with another line and body where an object stands."""
    made = lying()
    written = old.text()
    other = line + b"\n" + body + b"\n"
    return made.replace(written, other.ljust(len(written))[: len(written)])


def doubled(times: int) -> tuple[Record, list[Record]]:
    """A tree that has one below it twice, and so on, down to a file."""
    made = [BELOW]
    for _ in range(times):
        made.append(tree((b"40000", b"a", made[-1].name), (b"40000", b"b", made[-1].name)))
    return made[-1], made[1:-1]


def deep(levels: int) -> tuple[Record, list[Record]]:
    made = [BELOW]
    for _ in range(levels):
        made.append(tree((b"40000", b"a", made[-1].name)))
    return made[-1], made[1:-1]


def diamonds(count: int) -> bytes:
    """A history in which each commit has two parents, down to the first."""
    made, before = [], [FIRST.name]
    for number in range(count):
        two = [commit(BELOW.name, *before), record(b"commit", commit(TREE.name, *before).body)]
        made += two
        before = [each.name for each in two]
    return lying([*HELD, *made], {b"refs/heads/main": made[-1].name})


GONE, HUGE = bytes(20), 2**64 - 1
SLOTS = {
    "end-beyond": lambda end, at, digest: slot(end + 1, at, digest),
    "end-huge": lambda end, at, digest: slot(HUGE, at, digest),
    "end-in-head": lambda end, at, digest: slot(100, 50, digest),
    "tail-at-end": lambda end, at, digest: slot(end, end, sha256(b"")),
    "tail-at-0": lambda end, at, digest: slot(end, 0, digest),
    "tail-huge": lambda end, at, digest: slot(end, HUGE, digest),
}
RUNS = {
    "none": lambda run: [],
    "twice": lambda run: [run, run],
    "many": lambda run: [run] * 20000,
    "shifted": lambda run: [Run(run.place + 1, run.count, run.digest)],
    "huge-count": lambda run: [Run(run.place, 2**62, run.digest)],
    "huge-place": lambda run: [Run(HUGE, run.count, run.digest)],
    "wraps": lambda run: [Run(2**64 - ROW, run.count, run.digest)],
    "in-head": lambda run: [Run(0, run.count, run.digest)],
    "less": lambda run: [Run(run.place, run.count - 1, run.digest)],
    "more": lambda run: [Run(run.place, run.count + 1, run.digest)],
}
ROWS = {
    "turned": lambda rows: rows[::-1],
    "one-place": lambda rows: [(name, rows[0][1]) for name, _ in rows],
    "next-place": lambda rows: [(name, at + 1) for name, at in rows],
    "huge-place": lambda rows: [(name, HUGE) for name, _ in rows],
    "swapped": lambda rows: [(rows[0][0], rows[1][1]), (rows[1][0], rows[0][1]), *rows[2:]],
    "half": lambda rows: rows[::2],
    "doubled": lambda rows: sorted(rows * 2),
    "near": lambda rows: sorted([*rows, *((LAST.name[:18] + b"%02d" % n, HEAD) for n in range(99))]),
    "low": lambda rows: [*((n.to_bytes(20, "big"), HEAD) for n in range(5000)), *rows],
}
REF_LINES = {
    "escape": [b"DIGITS refs/heads/\x1b[31m"],
    "nul": [b"DIGITS refs/heads/a\0b"],
    "nonsense": [b"nonsense"],
    "empty": [b""],
    "upper": [b"DIGITS refs/heads/main".upper()],
    "no-name": [b"DIGITS "],
    "unsorted": [b"DIGITS refs/heads/z", b"DIGITS refs/heads/main"],
    "twice": [b"DIGITS refs/heads/main", b"DIGITS refs/heads/main"],
    "dots": [b"DIGITS refs/heads/a..b"],
    "space": [b"DIGITS refs/heads/a b"],
    "of-blob": [BLOB.name.hex().encode() + b" refs/heads/main"],
    "of-nothing": [GONE.hex().encode() + b" refs/heads/main"],
}
COUNTS = {"huge": b"%d" % HUGE, "more": b"2", "less": b"0", "zeros": b"01", "word": b"x"}
TREES = {
    "file-is-tree": tree((b"100644", b"f", BELOW.name)),
    "file-is-commit": tree((b"100644", b"f", FIRST.name)),
    "link-is-tree": tree((b"120000", b"f", BELOW.name)),
    "dir-is-blob": tree((b"40000", b"d", BLOB.name)),
    "dir-is-commit": tree((b"40000", b"d", FIRST.name)),
    "file-gone": tree((b"100644", b"f", GONE)),
    "dir-gone": tree((b"40000", b"d", GONE)),
    "dots": tree((b"100644", b"..", BLOB.name)),
    "git": tree((b"40000", b".git", BELOW.name)),
    "slash": tree((b"100644", b"d/f", BLOB.name)),
    "no-name": tree((b"100644", b"", BLOB.name)),
    "mode": tree((b"999999", b"f", BLOB.name)),
    "unsorted": tree((b"100644", b"z", BLOB.name), (b"100644", b"f", BLOB.name)),
    "twice": tree((b"100644", b"f", BLOB.name), (b"100644", b"f", OTHER.name)),
    "long": tree((b"100644", b"f" * 5000, BLOB.name)),
    "nonsense": record(b"tree", b"nonsense"),
}
TREE_LINE = b"tree %s\n" % TREE.name.hex().encode()
COMMITS = {
    "empty": b"",
    "tree-gone": b"tree %s\n" % GONE.hex().encode() + PERSON,
    "tree-is-blob": b"tree %s\n" % BLOB.name.hex().encode() + PERSON,
    "parent-gone": TREE_LINE + b"parent %s\n" % GONE.hex().encode() + PERSON,
    "parent-is-tree": TREE_LINE + b"parent %s\n" % BELOW.name.hex().encode() + PERSON,
    "parents-many": TREE_LINE + b"parent %s\n" % FIRST.name.hex().encode() * 3000 + PERSON,
    "no-author": TREE_LINE + b"\nm",
    "date": TREE_LINE + PERSON.replace(b"1", b"9" * 30),
}
LENGTHS = {"huge": HUGE, "over": 2**64, "gigabyte": 2**30, "more": 7, "less": 5}


def texts() -> Iterable[tuple[str, bytes]]:
    """All texts, by what lies in them."""
    yield "nothing", lying()
    yield from ((f"slot-{name}", lying(picked=change)) for name, change in SLOTS.items())
    yield from ((f"runs-{name}", lying(runs=change)) for name, change in RUNS.items())
    yield from ((f"rows-{name}", lying(rows=change)) for name, change in ROWS.items())
    yield from ((f"ref-{name}", with_refs(*lines)) for name, lines in REF_LINES.items())
    main = b"DIGITS refs/heads/main"
    yield from ((f"refs-{name}", with_refs(main, count=told)) for name, told in COUNTS.items())
    yield from ((f"tree-{name}", of_tree(made)) for name, made in TREES.items())
    yield from ((f"commit-{name}", of_commit(body)) for name, body in COMMITS.items())
    for name, length in LENGTHS.items():
        line = b"blob %d %s" % (length, BLOB.name.hex().encode())
        yield f"length-{name}", in_place(BLOB, line, BLOB.body)
    yield "kind", in_place(FIRST, FIRST.text().partition(b"\n")[0].replace(b"commit", b"blob"), b"")
    yield from ((f"gone-{number}", without(each)) for number, each in enumerate(HELD))
    for name, made in {"gone": tag(GONE), "tree": tag(TREE.name), "blob": tag(BLOB.name, b"blob")}.items():
        yield f"tag-{name}", lying([*HELD, made], REFS | {b"refs/tags/v": made.name})
    behind = [each for each in HELD if each is not FIRST]
    yield "parent-behind", lying([*behind, FIRST])
    for levels in (2047, 2048, 5000):
        made, below = deep(levels)
        yield f"deep-{levels}", of_tree(made, *below)
    made, below = doubled(12)
    yield "doubled", of_tree(made, *below)
    yield "diamonds", diamonds(1000)


TEXTS = dict(texts())
DIGITS = BLOB.name.hex()
QUESTIONS = [
    ["refs", "STORE"],
    ["rev-parse", "STORE", "main", "v^{}", "main^{tree}"],
    ["rev-parse", "STORE", DIGITS[:6]],
    ["rev-parse", "STORE", GONE.hex()],
    ["show", "STORE", DIGITS],
    ["show", "STORE", "main:f"],
    ["show", "STORE", "main:d/f"],
    ["ls", "STORE", "main"],
    ["ls", "-r", "STORE", "main"],
    ["log", "STORE", "main"],
    ["log", "--format=raw", "STORE", "main"],
    ["log", "STORE", "main...main~1"],
    ["log", "--all", "STORE"],
    ["archive", "STORE", "main"],
    ["archive", "STORE", "v"],
    ["export", "--changes", "STORE", "main~1..main"],
    ["export", "--changes", "STORE", "main", "^v"],
    ["export", "--changes", "STORE", "main...v~1"],
    ["export", "--changes", "STORE", "main^!"],
    ["bundle", "STORE"],
    ["verify", "STORE"],
]
SENT = re.compile(rb"^blob\nmark :\d+\ndata (\d+)\n", re.M)
LINES = [b"main", b"main:", b"main:f", b"main:d", b"main:d/f", b"v", b"v^{}", b"main~1", DIGITS.encode()]
COMMANDS = b"info main:f\ncontents v\nls -r main\nlog main\nrev-parse main~1\nrefs\narchive main\n"


def ask(gx: Program, store: Path, words: list[str], stdin: bytes = b"") -> Done:
    """What comes of a question, which ends by itself."""
    given = [str(store) if word == "STORE" else word for word in words]
    front = ["sh", "-c", f'ulimit -v {MEMORY} && exec "$@"', "sh", gx.path]
    done = run_program([*front, *given], stdin, timeout=20, env=gx.environment)
    counted["questions to lying stores"] += 1
    assert done.status in (0, 1), (words, done)
    assert done.err.startswith(b"gx: ") if done.status else not done.err, (words, done)
    assert done.err != b"gx: out of memory\n", words
    return done


@pytest.mark.parametrize("text", TEXTS)
def test_lying(gx: Program, tmp_path: Path, text: str) -> None:
    """Whatever lies, a question ends, and what is shown is what a store can have."""
    store = tmp_path / "store"
    store.write_bytes(TEXTS[text])
    for words in QUESTIONS:
        done = ask(gx, store, words)
        if words[0] == "refs":
            lines = [REF.fullmatch(line) for line in done.out.splitlines()]
            assert all(line and not NO_REF.search(line[2]) for line in lines), done.out
        if words[-1] == DIGITS and not done.status:
            assert record(b"blob", done.out).name == BLOB.name
        if words[0] == "export":
            bodies = [done.out[sent.end() :][: int(sent[1])] for sent in SENT.finditer(done.out)]
            assert all(body in (BLOB.body, OTHER.body) for body in bodies), done.out
    only_named(ask(gx, store, ["batch", "STORE"], b"\n".join(LINES)).out, LINES)
    for form in ("--check", "--command"):
        ask(gx, store, ["batch", form, "STORE"], COMMANDS)
