"""Many runs at once, and stores that others change meanwhile: no finished run's work is lost."""

from __future__ import annotations

import os
import random
import subprocess
import threading
import time
from contextlib import contextmanager
from collections.abc import Callable, Iterator
from pathlib import Path

import pytest

from programs import EMPTY_STORE, Done, counted
from store_files import NEW, OLD, StoreFile, as_other, branch_stream, ended, refused

ROUNDS, RUNS = 20, 20
KILLED = -9


def has_branch(store: StoreFile, number: int) -> bool:
    """Whether a branch has its commit, with the branch's number in its file."""
    return store.run("show", store.path, f"branch{number}:test.txt").out == b"%d\n" % number


@pytest.fixture
def branches(tmp_path: Path) -> list[Path]:
    """Streams, each of one branch; the first has the number 1."""
    paths = [tmp_path / f"branch.{number}" for number in range(1, RUNS + 2)]
    for number, path in enumerate(paths, 1):
        path.write_bytes(branch_stream(number))
    return paths


def start_branch(store: StoreFile, branch: Path) -> subprocess.Popen:
    with branch.open("rb") as stream:
        return store.start("import", store.path, stdin=stream)


def test_waiting(store: StoreFile, branches: list[Path]) -> None:
    """A second import waits for the first, readers don't, and the work of both is there."""
    first = store.start("import", store.path, stdin=subprocess.PIPE)
    first.stdin.write(branch_stream(1) + b"progress half\n")
    first.stdin.flush()
    assert first.stdout.readline() == b"progress half\n"
    second = start_branch(store, branches[1])
    time.sleep(0.5)
    assert second.poll() is None
    assert store.holds(OLD)
    done = store.run("refs", store.path)
    assert (done.status, done.err) == (0, b"")
    refused(store.run("init", store.path), "store exists")
    first.stdin.write(b"done\n")
    assert ended(first).status == 0
    assert ended(second).status == 0
    assert has_branch(store, 1) and has_branch(store, 2)
    assert store.names() == {"store"}


def test_refused_at_once(store: StoreFile) -> None:
    """A run that can't lock the store must not wait for an input that never comes."""
    store.path.chmod(0o444)
    store.folder.chmod(0o555)
    child = store.start("import", store.path, stdin=subprocess.PIPE, **as_other())
    status = child.wait(timeout=30)
    store.kept(Done(status, child.stdout.read(), child.stderr.read()), "write failed")
    child.communicate()


@contextmanager
def read_meanwhile(store: StoreFile) -> Iterator[None]:
    """Reads the store again and again, which has to be without a fault."""
    over, faults = threading.Event(), []

    def read() -> None:
        while not over.is_set():
            done = store.run("refs", store.path)
            if (done.status, done.err) != (0, b""):
                faults.append(done)

    reader = threading.Thread(target=read)
    reader.start()
    yield
    over.set()
    reader.join()
    assert not faults


@pytest.mark.parametrize("turn", range(1, ROUNDS + 1))
def test_imports_at_once(store: StoreFile, branches: list[Path], turn: int) -> None:
    """Twenty imports, of which some are killed: what has ended is there, and the store stands
    alone.
    """
    randoms = random.Random(turn)
    with read_meanwhile(store):
        runs = [start_branch(store, branch) for branch in branches[:RUNS]]
        for number in (2, 6, 10, 14, 18):
            threading.Timer(randoms.random() / 25, runs[number - 1].kill).start()
        statuses = [ended(run).status for run in runs]
    assert set(statuses) <= {0, KILLED}
    counted["imports at once"] += RUNS
    counted["imports at once that were killed"] += statuses.count(KILLED)
    finished = [number for number, status in enumerate(statuses, 1) if status == 0]
    assert all(has_branch(store, number) for number in finished)
    done = ended(start_branch(store, branches[RUNS]))
    assert (done.status, done.err) == (0, b"")
    assert has_branch(store, RUNS + 1)
    assert store.names() == {"store"}


@pytest.mark.parametrize("turn", range(1, ROUNDS + 1))
def test_inits_at_once(store: StoreFile, turn: int) -> None:
    """One makes the store, and the others are refused."""
    store.path.unlink()
    runs = [store.start("init", store.path) for _ in range(RUNS)]
    answers = [ended(run) for run in runs]
    assert answers.count(Done(0, b"", b"")) == 1
    assert answers.count(Done(1, b"", b"gx: store exists\n")) == RUNS - 1
    assert store.holds_alone(EMPTY_STORE)


# ---- a store that changes while an import runs


def replace(path: Path) -> None:
    other = path.with_name("other")
    other.write_bytes(EMPTY_STORE)
    other.rename(path)


def rewrite(path: Path) -> None:
    path.write_bytes(EMPTY_STORE)


def touch(path: Path) -> None:
    os.utime(path, (978307200, 978307200))


@pytest.mark.parametrize(
    "change", [replace, rewrite, touch, Path.unlink], ids=lambda change: change.__name__
)
def test_changed_meanwhile(store: StoreFile, change: Callable[[Path], None]) -> None:
    """The import is refused, what stands there stays, and the new text is kept beside it."""
    child = store.start_waiting()
    change(store.path)
    kept = store.path.read_bytes() if store.path.exists() else None
    done = ended(child)
    assert (done.status, done.err) == (1, b"gx: write failed\n")
    assert (store.path.read_bytes() if store.path.exists() else None) == kept
    assert store.next.read_bytes() == NEW
