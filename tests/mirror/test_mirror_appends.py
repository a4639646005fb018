"""A mirror of a growing store: FILE is read once at most, what is new is appended once, and nothing
is written where nothing is new. So it is of `git push --mirror`.
"""

from __future__ import annotations

import re
from collections.abc import Callable
from pathlib import Path
from typing import NamedTuple

import pytest
from mirror_world import World
from programs import Done, run_program
from store_files import needs_strace

pytestmark = needs_strace
CALLS = "read,readv,pread64,preadv,write,writev,pwrite64,pwritev,ftruncate,rename,mmap,sendfile"
DATA = re.compile(r"^(\w+)\(\d+<([^>]*)>.* = (\d+)$", re.M)
LARGE = bytes(2000000)


class Cost(NamedTuple):
    """What a run took of the store's file: bytes that were read, and the length of each write."""

    read: int
    written: list[int]

    def picks(self) -> int:
        """How often a segment was picked, by a write of one byte."""
        return self.written.count(1)


def way_of_mirror(world: World, front: list[str]) -> Done:
    return world.mirror(front=front)


def way_of_push(world: World, front: list[str]) -> Done:
    words = [*front, "git", "push", "-q", "--mirror", f"gx::{world.store.path}"]
    return run_program(words, env=world.environment, cwd=world.repository.path)


@pytest.fixture(params=[way_of_mirror, way_of_push], ids=["gx-mirror", "push"])
def cost(request: pytest.FixtureRequest, world: World) -> Callable[[], Cost]:
    """Brings the store up to date, and tells what that took."""
    world.repository.commit("large", large=LARGE)
    world.follows()

    def measured() -> Cost:
        trace = world.folder / "trace"
        trace.mkdir(exist_ok=True)
        front = ["strace", "-ff", "-y", "-qq", "-s", "0", "-o", str(trace / "of"), "-e", CALLS]
        done = request.param(world, front)
        assert done.status == 0, done
        assert world.store.refs() == world.repository.refs()
        return cost_in(trace, world.store.path)

    return measured


def cost_in(trace: Path, store: Path) -> Cost:
    read, written = 0, []
    for path in trace.iterdir():
        text = path.read_text()
        # what is mapped, sent or put in place tells no bytes
        place = re.escape(str(store))
        assert not re.search(rf"^(mmap|sendfile|rename)\(.*{place}[>\"]", text, re.M)
        rows = [row for row in DATA.findall(text) if row[1] == str(store)]
        read += sum(int(size) for call, _, size in rows if "read" in call)
        written += [int(size) for call, _, size in rows if "write" in call]
        path.unlink()
    return Cost(read, written)


def test_appended_once(world: World, cost: Callable[[], Cost]) -> None:
    """A commit, a tag and a branch that is forced: a segment, a slot and a byte are written."""
    repository, size = world.repository, world.store.path.stat().st_size
    inode = world.store.path.stat().st_ino
    repository.commit("main")
    repository.git("tag", "-m", "Two", "v2", "main")
    repository.commit("side", repository.refs()[b"refs/heads/main"])
    taken = cost()
    assert taken.picks() == 1
    assert sum(taken.written) < 5000
    assert taken.read <= 1.1 * size
    assert world.store.path.stat().st_ino == inode


def test_drops_are_appended(world: World, cost: Callable[[], Cost]) -> None:
    world.repository.delete(b"refs/heads/side")
    taken = cost()
    assert taken.picks() == 1
    assert sum(taken.written) < 2000


def test_nothing_new(world: World, cost: Callable[[], Cost]) -> None:
    """Little is read, and no byte is written."""
    before = world.store.path.stat()
    taken = cost()
    assert (taken.written, taken.read < 5000) == ([], True)
    after = world.store.path.stat()
    assert (after.st_ino, after.st_size, after.st_mtime_ns) == (
        before.st_ino,
        before.st_size,
        before.st_mtime_ns,
    )
