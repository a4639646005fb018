"""Appends that are killed, whose system calls fail, or that find no room, and many at once: the
store is the old or the new one, and the next import goes on.
"""

from __future__ import annotations

import errno
import random
import resource
import subprocess
import threading
import time
from pathlib import Path

import pytest

from failing import needs_faults
from programs import Done, Program, counted, run_program
from stops import PICK, Ender, ended_at, written
from store_files import blob_stream, branch_stream, ended, refused
from test_appends_crash import CHANGES, NEXT, Appended, appended

KILLED = -9
ERRORS = [errno.EIO, errno.ENOSPC, errno.EACCES, errno.EINTR]
# what comes first, and what comes then: less, and so it is appended
HELD = blob_stream([b"%05d" % number + b"x" * 2995 for number in range(12)])
LARGE = blob_stream([b"%05d" % number + b"x" * 2995 for number in range(20, 30)])
NAMES = ["merged", "drop", "behind", "large"]


def run_to_an_end(change: Appended, ender: Ender) -> Done:
    """A run over the old store of which a call ends it, or fails."""
    change.store.with_name("store.new").unlink(missing_ok=True)
    change.store.write_bytes(change.before)
    return ended_at(change.words, ender, change.stdin, env=change.gx.environment)


@needs_faults
@pytest.mark.parametrize("name", NAMES)
def test_killed_at_each_call(gx: Program, tmp_path: Path, name: str) -> None:
    change, number = appended(gx, tmp_path, name), 1
    while (done := run_to_an_end(change, ender := Ender(number))).status == KILLED:
        text = change.store.read_bytes()
        assert {path.name for path in tmp_path.iterdir()} <= {"store", "store.new"}
        gx.prints("import", change.store, stdin=NEXT)
        assert {path.name for path in tmp_path.iterdir()} == {"store"}
        assert change.told_with(text) in change.ends, ender.name
        counted["appends that were killed at a call"] += 1
        number += 1
    assert (done.status, ender.name) == (change.done.status, "")
    assert number > len(change.steps)


@needs_faults
@pytest.mark.parametrize("name", NAMES)
def test_call_that_fails(
    request: pytest.FixtureRequest, gx: Program, tmp_path: Path, name: str, randoms: random.Random
) -> None:
    """Each call fails in turn: who is told that it is done finds it done, and what isn't written
    whole leaves no byte behind the old end."""
    change, number, is_made = appended(gx, tmp_path, name), 0, True
    while is_made:
        number += 1
        errors = ERRORS if request.config.getoption("long") else [randoms.choice(ERRORS)]
        for error in errors:
            done = run_to_an_end(change, ender := Ender(number, error))
            is_made = ender.name != ""
            text, told = change.store.read_bytes(), (ender.name, error, done)
            found = change.told_with(text)
            assert found in change.ends, told
            assert done.status != 0 or found == change.ends[1], told
            # where it can't be told whether a slot is picked, nothing is cut
            is_staged = written(text, PICK, change.after[PICK : PICK + 1]) == change.after
            assert done.status == 0 or is_staged or len(text) <= len(change.before), told
            counted["calls of appends that failed"] += is_made


# ---- no room

# a disk of sixteen pages, which only this run sees: an import of what doesn't fit, and a small one
SMALL_DISK = """
mount -t tmpfs -o size=64k tmpfs "$2" || exit 77
cp "$3" "$2/store" || exit 77
"$1" import "$2/store" < "$4" > "$5/out" 2> "$5/err"
echo $? > "$5/status"
cp "$2/store" "$5/store"
ls -A "$2" > "$5/names"
"$1" import "$2/store" < "$6" && cp "$2/store" "$5/next"
"""


def growing(gx: Program, path: Path) -> bytes:
    """The text of a growing store with two segments."""
    gx.prints("init", "--growing", path)
    for stream in (HELD, branch_stream(1)):
        gx.prints("import", path, stdin=stream)
    return path.read_bytes()


def test_full_disk(gx: Program, gx_of_all: Path, tmp_path: Path) -> None:
    """What finds no room leaves the bytes of the old store, and what fits goes on."""
    store, old = tmp_path / "store", growing(gx, tmp_path / "store")
    disk, left, large, small = (tmp_path / name for name in ("disk", "left", "large", "small"))
    disk.mkdir()
    left.mkdir()
    large.write_bytes(LARGE)
    small.write_bytes(NEXT)
    words = ["sh", "-c", SMALL_DISK, "sh", gx_of_all, disk, store, large, left, small]
    ends = (run_program(["unshare", flags, *words]).status for flags in ("-m", "-rm"))
    if 0 not in ends:
        pytest.skip("no small disk can be mounted here")
    texts = [(left / name).read_bytes() for name in ("status", "out", "err")]
    refused(Done(int(texts[0]), *texts[1:]), "write failed")
    assert (left / "store").read_bytes() == old
    assert (left / "names").read_text().split() == ["store"]
    gx.prints("import", store, stdin=NEXT)
    assert gx.prints("export", left / "next") == gx.prints("export", store)


@pytest.mark.parametrize("room", [1, 100, 4096, 30000])
def test_size_of_a_file(gx: Program, tmp_path: Path, room: int) -> None:
    store, old = tmp_path / "store", growing(gx, tmp_path / "store")
    limit = (len(old) + room,) * 2
    how = {"preexec_fn": lambda: resource.setrlimit(resource.RLIMIT_FSIZE, limit)}
    done = gx("--explain", "import", store, stdin=LARGE, **how)
    refused(done, f"write failed\ngx: {store}: File too large (os error 27)")
    assert store.read_bytes() == old
    assert not store.with_name("store.new").exists()


# ---- at once

RUNS = 24
QUESTIONS = (["verify"], ["refs"], ["log", "--all"], ["export"])


class Readers:
    """Questions that go on until they are told to stop. Each has to be answered."""

    def __init__(self, gx: Program, store: Path):
        self.gx, self.store, self.faults, self.is_over = gx, store, [], threading.Event()
        self.runs = [threading.Thread(target=self.ask, args=[words]) for words in QUESTIONS]

    def ask(self, words: list[str]) -> None:
        while not self.is_over.is_set():
            done = self.gx(*words, self.store)
            counted["questions meanwhile"] += 1
            if (done.status, done.err) != (0, b""):
                self.faults.append((words, done))

    def __enter__(self) -> Readers:
        for run in self.runs:
            run.start()
        return self

    def __exit__(self, *_: object) -> None:
        self.is_over.set()
        for run in self.runs:
            run.join()


@pytest.mark.parametrize("turn", range(2))
def test_at_once(gx: Program, tmp_path: Path, turn: int) -> None:
    """Many imports, of which some are killed, and readers: what has ended is there."""
    store, randoms = tmp_path / "store", random.Random(turn)
    growing(gx, store)
    inode = store.stat().st_ino
    runs = {}
    with Readers(gx, store) as readers:
        for number in range(10, 10 + RUNS):
            how = dict.fromkeys(("stdin", "stdout", "stderr"), subprocess.PIPE)
            child = subprocess.Popen([gx.path, "import", store], **how)
            child.stdin.write(branch_stream(number))
            child.stdin.close()
            child.stdin = None
            runs[number] = child
            if number % 4 == 0:
                threading.Timer(randoms.random() / 20, child.kill).start()
            time.sleep(randoms.random() / 50)
        statuses = {number: ended(child).status for number, child in runs.items()}
    assert not readers.faults
    assert set(statuses.values()) <= {0, KILLED}
    refs = gx.prints("refs", store).decode()
    finished = [number for number, status in statuses.items() if status == 0]
    assert all(f" refs/heads/branch{number}\n" in refs for number in finished)
    gx.prints("import", store, stdin=NEXT)
    gx.prints("verify", store)
    assert store.stat().st_ino == inode
    assert {path.name for path in tmp_path.iterdir()} == {"store"}
