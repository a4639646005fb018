"""What `gx gc` makes of growing stores, of which it reads what it keeps: the text that it makes of the
same store read as a whole, also of several segments and runs, and of what is damaged elsewhere.
"""

from __future__ import annotations

import contextlib
import errno
import fcntl
import random
import re
import resource
import subprocess
import time
from collections.abc import Iterator
from pathlib import Path

import pytest

from failing import Call, needs_faults, run_watched
from growing_reading import read
from growing_texts import HEAD, UNUSED, GrowingText, Record, Run, head, page_digests
from growing_texts import sha256, slot, tail, with_runs
from programs import Done, Program, counted
from stops import Ender, ended_at
from store_files import NEW, OLD, named
from test_damaged_looks import draws
from test_growing import grown
from test_salvage import branches, torn

RECORD = re.compile(rb"(blob|tree|commit|tag) (\d+) ([0-9a-f]{40})\n")


def plain_of(text: bytes) -> bytes:
    """The store of version 2 of what a growing text tells."""
    held = read(text)
    refs = b"".join(line + b"\n" for line in held.refs)
    front = b"gxstore 2\nobjects %d\n" % len(held.records)
    return front + b"".join(held.records) + b"refs %d\n" % len(held.refs) + refs + b"end\n"


def gone(gx: Program, store: Path, text: bytes, keep: Path) -> tuple[Done, bytes]:
    """What comes of gc, and the text of the store then. Nothing is left beside it."""
    store.write_bytes(text)
    done = gx("gc", "--report", "--keep", keep, store)
    assert not store.with_name(f"{store.name}.new").exists()
    return done, store.read_bytes()


def try_whole(gx: Program, folder: Path, randoms: random.Random) -> None:
    """A text of several segments: the same is left, and goes, as where it is read as a whole."""
    store, plain, keep = folder / "store", folder / "plain", folder / "keep"
    whole = branches(randoms)
    names = randoms.sample(sorted(whole.reach), randoms.randint(0, 2))
    keep.write_bytes(b"".join(name + b"\n" for name in [*names, b"0" * 40]))
    done, text = gone(gx, store, whole.text, keep)
    assert gone(gx, plain, plain_of(whole.text), keep)[0] == done
    gx.prints("grow", plain)
    assert text == plain.read_bytes()
    before = store.stat()
    nothing = Done(0, b"", b"gx: pruned objects: 0, bytes: 0\n")
    assert gx("gc", "--report", "--keep", keep, store) == nothing
    after = store.stat()
    assert (after.st_ino, after.st_mtime_ns) == (before.st_ino, before.st_mtime_ns)
    counted["growing stores that lose objects"] += text != whole.text


def try_torn(gx: Program, folder: Path, randoms: random.Random) -> None:
    """A torn text: where all that refs reach can be read, that is left; else FILE is as it was."""
    store, new, keep = folder / "store", folder / "new", folder / "keep"
    keep.write_bytes(b"")
    text = torn(branches(randoms).text, randoms)
    done, left = gone(gx, store, text, keep)
    if done.status:
        assert (done.err, left) == (b"gx: store: Damaged\n", text)
        counted["torn stores that gc refuses"] += 1
        return
    gx.prints("verify", store)
    store.write_bytes(text)
    assert gx.prints("verify", "--salvage", new, store) == b""
    assert new.read_bytes() == left
    new.unlink()
    counted["torn stores that gc mends"] += 1


def try_damaged(gx: Program, store: Path, keep: Path, text: bytes) -> None:
    """A text that is no repository's, as another writer may make: gc ends, and what it leaves has the
    names of its bodies."""
    done, left = gone(gx, store, text, keep)
    assert done.status in (0, 1)
    if done.status:
        assert left == text
        return
    for line in RECORD.finditer(left):
        body = left[line.end() : line.end() + int(line[2])]
        if not left[: line.start()].endswith(b"\n"):
            continue
        assert named(line[1].decode(), body).encode() == line[3]
    counted["damaged stores that gc takes"] += 1


@pytest.fixture
def times(request: pytest.FixtureRequest) -> int:
    return 50 if request.config.getoption("long") else 1


def test_whole(gx: Program, tmp_path: Path, randoms: random.Random, times: int) -> None:
    for _ in range(8 * times):
        try_whole(gx, tmp_path, randoms)


def test_torn(gx: Program, tmp_path: Path, randoms: random.Random, times: int) -> None:
    for _ in range(20 * times):
        try_torn(gx, tmp_path, randoms)


def test_damaged(gx: Program, tmp_path: Path, randoms: random.Random, times: int) -> None:
    keep = tmp_path / "keep"
    keep.write_bytes(b"")
    for _, text in zip(range(30 * times), draws(randoms)):
        try_damaged(gx, tmp_path / "store", keep, text[1])


def test_unread(gx: Program, tmp_path: Path) -> None:
    """A blob that nothing reaches goes, damaged or not. One that is reached is missed."""
    store = grown(gx, tmp_path, NEW)
    text = store.read_bytes()
    store.write_bytes(text.replace(b"test content", b"test content"[::-1]))
    assert gx("verify", store).err == b"gx: store: NameMismatch\n"
    assert gx.prints("gc", store) == b""
    assert gx.prints("verify", store).startswith(b"version 3\nobjects 3\nrefs 1\n")
    store.write_bytes(text.replace(b"version 1\n", b"version 2\n"))
    assert gx("gc", store) == Done(1, b"", b"gx: store: Damaged\n")
    assert store.read_bytes() == text.replace(b"version 1\n", b"version 2\n")


def test_turned(gx: Program, tmp_path: Path, randoms: random.Random, times: int) -> None:
    """Where one byte of a text is another, of which nothing goes, that is refused, or is mended."""
    store = grown(gx, tmp_path, OLD)
    text = store.read_bytes()
    for at in randoms.sample(range(len(text)), min(len(text), 60 * times)):
        turned = bytearray(text)
        turned[at] ^= randoms.randrange(1, 256)
        store.write_bytes(turned)
        done = gx("gc", store)
        assert store.read_bytes() == (turned if done.status else text), f"byte {at}"
        counted["turned bytes that gc mends"] += not done.status


def test_nothing_goes(gx: Program, tmp_path: Path) -> None:
    """Where nothing goes, no room is needed for it."""
    store = grown(gx, tmp_path, OLD)
    gx.prints("gc", store, preexec_fn=lambda: resource.setrlimit(resource.RLIMIT_FSIZE, (0, 0)))


def test_rows_of_many_runs(gx: Program, tmp_path: Path) -> None:
    """A text that tells one run again and again takes no memory for each."""
    blobs = [b"%d" % number for number in range(2000)]
    whole, store = GrowingText(), tmp_path / "store"
    whole.append([Record(b"blob", bytes.fromhex(named("blob", body)), body) for body in blobs], {})
    text = with_runs(whole.text(), whole.runs * 4000)
    store.write_bytes(text)
    room = (64 << 20, 64 << 20)
    done = gx("gc", store, preexec_fn=lambda: resource.setrlimit(resource.RLIMIT_AS, room))
    assert done == Done(1, b"", b"gx: store: BadRows\n")
    assert store.read_bytes() == text


@contextlib.contextmanager
def waiting(gx: Program, store: Path, *words: str | Path) -> Iterator[subprocess.Popen]:
    """A run that waits for another one on a store, which ends behind the block."""
    new = store.with_name(f"{store.name}.new")
    with new.open("w") as other:
        fcntl.flock(other, fcntl.LOCK_EX)
        child = subprocess.Popen([gx.path, *words], env=gx.environment)
        files = Path(f"/proc/{child.pid}/fd")
        while not any(file.samefile(new) for file in files.iterdir() if file.exists()):
            time.sleep(0.01)
        yield child


def test_link_that_is_turned(gx: Program, tmp_path: Path) -> None:
    """A link that leads elsewhere by the time that gc has its turn: the store that it waited for is
    collected."""
    store, link = grown(gx, tmp_path, NEW), tmp_path / "link"
    link.symlink_to(store.name)
    other = tmp_path / "other"
    gx.prints("init", "--growing", other)
    before = other.read_bytes()
    with waiting(gx, store, "gc", link) as child:
        link.unlink()
        link.symlink_to(other.name)
    assert child.wait(60) == 0
    assert other.read_bytes() == before
    assert gx.prints("verify", store).startswith(b"version 3\nobjects 3\nrefs 1\n")


MANY = 1 << 30


@needs_faults
@pytest.mark.parametrize("fault", [0, errno.EIO, errno.ENOSPC], ids=["killed", "EIO", "ENOSPC"])
def test_each_call(
    gx: Program, tmp_path: Path, randoms: random.Random, times: int, fault: int
) -> None:
    """Where a call fails, or gc is killed at it, FILE has its old text or the new one, and the next gc
    goes on."""
    store = grown(gx, tmp_path, NEW)
    text, new = store.read_bytes(), store.with_name("grown.new")
    words, how = [gx.path, "gc", store], {"env": gx.environment}
    counter = Ender(MANY)
    assert ended_at(words, counter, b"", **how) == Done(0, b"", b"")
    left, calls = store.read_bytes(), MANY - counter.number
    for number in randoms.sample(range(1, calls + 1), min(calls, 8 * times)):
        store.write_bytes(text)
        done = ended_at(words, Ender(number, fault), b"", **how)
        assert store.read_bytes() in ([text, left] if done.status else [left])
        assert not (fault and new.exists())
        assert gx.prints("gc", store) == b""
        assert store.read_bytes() == left and not new.exists()
        counted["calls of gc that failed"] += 1


@needs_faults
def test_taken_away(gx: Program, tmp_path: Path) -> None:
    """Who removes FILE.new by hand, where another run then makes its own, has gc fail."""
    store = grown(gx, tmp_path, NEW)
    text, new = store.read_bytes(), store.with_name("grown.new")

    def judge(call: Call) -> int:
        if call.place() == str(new) and new.exists() and new.stat().st_size:
            new.unlink()
            new.touch()
        return 0

    words = [gx.path, "gc", store]
    done = run_watched(words, ["fsync", "statx"], judge, b"", 60, env=gx.environment)
    assert done == Done(1, b"", b"gx: write failed\n")
    assert store.read_bytes() == text


def test_objects_in_objects(gx: Program, tmp_path: Path) -> None:
    """A text whose rows lead into bodies doesn't grow by gc: it is damaged."""
    inner = Record(b"blob", bytes.fromhex(named("blob", b"")), b"")
    body = inner.text() * 2
    outer = Record(b"blob", bytes.fromhex(named("blob", body)), body)
    whole, store, keep = GrowingText(), tmp_path / "store", tmp_path / "keep"
    whole.append([outer], {})
    place = whole.text().index(inner.text())
    rows = [whole.rows_of(whole.runs[0]), inner.name + place.to_bytes(8, "big")]
    table = b"".join(sorted(rows))
    front = whole.text()[HEAD : whole.text().index(b"rows 1\n")] + b"rows 2\n"
    pages = page_digests(table, sha256)
    run = Run(HEAD + len(front), 2, sha256(pages))
    last = tail([run], {})
    start = run.place + len(table) + len(pages) + 1
    ends = slot(start + len(last), start, sha256(last))
    store.write_bytes(head(b"a", ends, UNUSED) + front + table + pages + b"\n" + last)
    keep.write_bytes(b"".join(b"%s\n" % record.name.hex().encode() for record in (inner, outer)))
    text = store.read_bytes()
    assert gx("gc", "--keep", keep, store) == Done(1, b"", b"gx: store: Damaged\n")
    assert store.read_bytes() == text
