"""Imports that are killed, or whose system calls fail:

FILE has its old text or the whole new one, and the next run is done.
"""

from __future__ import annotations

import time
from pathlib import Path

import pytest

from programs import Done, counted, run_program
from store_files import (
    LARGE,
    NEW,
    OLD,
    STREAM,
    WIDE,
    StoreFile,
    branch_stream,
    mode_of,
    needs_strace,
    refused,
)

KILLED = -9


def kill(child) -> bool:
    """Kills a run. Answers whether it had ended before."""
    ended = child.poll() is not None
    child.kill()
    child.communicate()
    return ended


def test_killed_while_it_reads(store: StoreFile) -> None:
    child = store.start_waiting()
    assert store.holds_unwritten(OLD)
    kill(child)
    assert store.holds_unwritten(OLD)
    store.made(store.take(), NEW)


@pytest.fixture
def large(tmp_path: Path) -> Path:
    path = tmp_path / "large"
    path.write_bytes(LARGE)
    return path


def left_whole(store: StoreFile) -> None:
    """What a killed import left: the old or the new text. The store is the old one again."""
    assert store.holds(OLD, WIDE)
    counted["imports killed"] += 1
    counted["imports killed that had put their text in place"] += store.holds(WIDE)
    counted["imports killed that left a part of it"] += (
        store.next.exists() and store.next.stat().st_size > 0
    )
    store.path.write_bytes(OLD)


def test_killed_at_growing_delays(store: StoreFile, large: Path) -> None:
    """At delays that grow by a fifth, until the run is done before."""
    delay, ended = 0.005, False
    while not ended and delay < 20:
        with large.open("rb") as stream:
            child = store.start("import", store.path, stdin=stream)
        time.sleep(delay)
        ended = kill(child)
        left_whole(store)
        delay *= 1.2
    store.made(store.take(LARGE), WIDE)


DELAYS = [0, 0, 0, 0.001, 0.002, 0.003, 0.004, 0.005, 0.006, 0.008, 0.010, 0.012, 0.015, 0.020]


def test_killed_while_it_writes(store: StoreFile, large: Path) -> None:
    """As soon as a byte of the new text is seen, and a little later."""
    for delay in DELAYS:
        store.next.unlink(missing_ok=True)
        with large.open("rb") as stream:
            child = store.start("import", store.path, stdin=stream)
        while child.poll() is None and not (store.next.exists() and store.next.stat().st_size):
            pass
        time.sleep(delay)
        kill(child)
        left_whole(store)
    store.made(store.take(LARGE), WIDE)


def injected(store: StoreFile, change: str, trace: Path) -> Done:
    """An import with one of its system calls changed: CALL:CHANGE."""
    call = change.partition(":")[0]
    front = ["strace", "-qq", "-o", trace, "-e", f"trace={call}", "-e", f"inject={change}"]
    return run_program([*front, store.gx, "import", store.path], STREAM)


@needs_strace
@pytest.mark.parametrize(
    "change, fault",
    [("flock:error=ENOLCK", "lock failed"), ("rename:error=EACCES", "write failed")],
)
def test_refusing_system(store: StoreFile, change: str, fault: str, tmp_path: Path) -> None:
    """A file system without locks, and a new text that isn't put into its place."""
    store.kept(injected(store, change, tmp_path / "trace"), fault)


@needs_strace
@pytest.mark.parametrize(
    "call", ["flock", "fchmod", "write", "fsync:when=1", "rename", "fsync:when=2"]
)
def test_killed_at_a_call(store: StoreFile, call: str, tmp_path: Path) -> None:
    assert injected(store, f"{call}:signal=KILL", tmp_path / "trace").status in (
        KILLED,
        128 - KILLED,
    )
    assert store.holds(OLD, NEW)
    done = store.take(branch_stream(1))
    assert (done.status, done.err) == (0, b"")
    assert store.names() == {"store"}


CALLS = (
    "openat statx fstat readlink flock fchmod fchown read write fsync rename unlink prlimit64"
    " getrandom"
).split()


def is_sound(store: StoreFile, status: int) -> bool:
    """Whether no more is open to anybody than was, and a run that says so did its work."""
    # 127: the program wasn't loaded
    texts = {0: [NEW], 1: [OLD, NEW], 127: [OLD]}.get(status, [])
    private = all(mode_of(path) == 0o600 for path in (store.path, store.next) if path.exists())
    return store.holds(*texts) and private


@needs_strace
@pytest.mark.parametrize("call", CALLS)
def test_failing_call(store: StoreFile, call: str, tmp_path: Path) -> None:
    """The call fails at each of its places in turn."""
    trace = tmp_path / "trace"
    for number in range(1, 61):
        turn = store.beside(str(number))
        turn.path.chmod(0o600)
        done = injected(turn, f"{call}:error=EIO:when={number}", trace)
        if "INJECTED" not in trace.read_text():
            return
        counted["system calls that failed"] += 1
        assert is_sound(turn, done.status), (number, done)


@needs_strace
def test_no_random_bytes(store: StoreFile, tmp_path: Path) -> None:
    refused(injected(store, "getrandom:error=ENOSYS", tmp_path / "trace"), "random bytes failed")
