"""What a store as a remote of git costs: processor time beside git's own remotes, programs, and
reads.
"""

from __future__ import annotations

import re
import shutil
from collections.abc import Iterator
from contextlib import ExitStack
from itertools import repeat
from pathlib import Path
from subprocess import PIPE

import pytest
from programs import printed, run_program
from remote_world import World, helper
from store_files import needs_strace

COMMIT = b"commit %s\nmark :%d\ncommitter A <a@x> %d +0000\ndata 2\nx\n"
CHANGE = b"M 100644 inline file%d\ndata 2\n%d\n\n"
TAG = b"tag v%d\nfrom :%d\ntagger A <a@x> 1 +0000\ndata 2\nx\n"


def line_of_commits(count: int, refs: Iterator[bytes]) -> bytes:
    """A stream of commits that follow each other, each on the next ref."""

    def commit(row: int, ref: bytes) -> bytes:
        start = b"from :%d\n" % (row - 1) if row > 1 else b""
        return COMMIT % (ref, row, 1600000000 + row) + start + CHANGE % (row % 100, row % 10)

    return b"".join(map(commit, range(1, count + 1), refs))


def remotes(tmp_path: Path, gx_path: Path, stream: bytes) -> list[World]:
    """A repository of git and a store that have what a stream tells, as remotes; each with a clone
    that lacks a commit on main."""
    plain, by_store = (World(tmp_path / name, f"remote.{name}", gx_path) for name in ("git", "gx"))
    plain.git("fast-import", "--quiet", where=plain.remote, stdin=stream)
    plain.git("pack-refs", "--all", where=plain.remote)
    by_store.store("init")
    by_store.store("import", stdin=stream)
    for world in (plain, by_store):
        world.git("clone", "-q", world.url, "clone", where=".")
        world.git("pull", "-q", "--no-tags", "origin", "main")
        world.commit({"more": "1\n"})
        world.git("push", "-q", "origin", "main")
    return [plain, by_store]


def best_fetch(world: World) -> float:
    """The least processor time of a fetch of one commit, of three."""
    times = []
    for number in range(3):
        copy = f"copy{number}"
        shutil.copytree(world.folder / "clone", world.folder / copy, symlinks=True)
        done, time = world.seconds("fetch", "-q", "origin", where=copy)
        times.append(time)
        assert done.status == 0
        assert world.git("rev-parse", "origin/main", where=copy) == world.git("rev-parse", "main")
    return min(times)


def test_fetch_beside_many_refs(
    request: pytest.FixtureRequest, tmp_path: Path, gx_path: Path
) -> None:
    """A fetch of one commit beside 10,000 refs takes at most twice git's processor time. Without
    --long it may take four times that, as programs that were built without proofs check more."""
    refs = (b"refs/heads/" + (b"topic%d" % row if row else b"main") for row in range(10000))
    plain, by_store = remotes(tmp_path, gx_path, line_of_commits(10000, refs))
    of_git, of_store = best_fetch(plain), best_fetch(by_store)
    most = 2 if request.config.getoption("long") else 4
    assert of_store <= most * of_git, f"{of_store:.2f} s, and git's {of_git:.2f} s"


@pytest.mark.parametrize("by", ["export", "bundle"])
def test_fetch_sets_no_refs(world: World, monkeypatch: pytest.MonkeyPatch, by: str) -> None:
    """The empty repository of a fetch has no refs behind it, and the real one has all objects."""
    refs = (b"refs/heads/" + (b"topic%d" % row if row else b"main") for row in range(50))
    stream = line_of_commits(50, refs) + b"".join(TAG % (row, row) for row in range(1, 20))
    world.store("init")
    world.store("import", stdin=stream)
    for name, text in {**world.environment, "GIT_DIR": str(world.folder / "work/.git")}.items():
        monkeypatch.setenv(name, text)
    script = helper()
    with ExitStack() as ends:
        repository = script.Repository(ends)
        named = {ref.encode(): digits.encode() for ref, digits in world.named().items()}
        if by == "export":
            words = [world.gx, "export", "--changes", world.remote]
            repository.take_stream(script.Program(words, stdout=PIPE), named.keys(), None)
        else:
            words = [world.gx, "bundle", "--pack", world.remote]
            repository.take(script.Program(words, stdout=PIPE), list(named.values()), None)
        folder = Path(repository.there["GIT_DIR"])
        paths = [folder / "packed-refs", *folder.glob("refs/**/*")]
        assert [path for path in paths if path.is_file() and path.stat().st_size] == []
    digits = world.named().values()
    assert len(digits) == 69
    world.git("rev-list", "--objects", *digits)


def test_refusal_of_many_branches(world: World) -> None:
    """A root that no store holds refuses 40 branches above it by one import, in at most twice the
    time that it takes for one branch; and what stands beside goes by one more."""
    world.git("commit", "-q", "--allow-empty", "-m", "Root")
    root = world.early()
    stream = line_of_commits(2000, repeat(b"refs/heads/main"))
    stream = stream.replace(b"data 2\nx\nM", b"data 2\nx\nfrom %s\nM" % root.encode(), 1)
    world.git("fast-import", "--quiet", "--force", stdin=stream)
    for number in range(40):
        above = world.git("commit-tree", "-p", "main", "-m", f"{number}", "main^{tree}")
        world.git("branch", f"topic{number}", above)
    world.git("branch", "beside", world.git("commit-tree", "-m", "Apart", "main^{tree}"))
    told = f"topic0 (BadObject: commit {root})"
    more, commands = world.counted()
    topics = [f"topic{number}" for number in range(40)]
    of_one, one = world.seconds("push", "origin", topics[0], more=more)
    of_many, many = world.seconds("push", "origin", *topics, more=more)
    assert told in of_one.err.decode() and of_many.err.count(b"BadObject: commit") == 40
    assert commands() == ["init", "import"] * 2
    assert many <= 2 * one, f"{many:.2f} s, and {one:.2f} s of one branch"
    done = world.run("push", "--all", "origin", more=more)
    assert done.err.count(b"BadObject: commit") == 41
    assert list(world.named()) == ["refs/heads/beside"]


def test_tags_are_read_at_once(world: World) -> None:
    """As many programs of git run for a push of many annotated tags as for one."""
    world.commit({"file": "1\n"})
    for number in range(1, 31):
        world.git("tag", "-m", "Tag", f"v{number}")
    trace = world.folder / "trace"
    counts = []
    for tags in (["v1"], [f"v{number}" for number in range(2, 31)]):
        trace.write_text("")
        world.git("push", "-q", "origin", *tags, more={"GIT_TRACE": str(trace)})
        counts.append(trace.read_text().count("trace: built-in: "))
    assert 0 < counts[1] <= counts[0], counts


def test_modules_that_are_loaded(world: World) -> None:
    """A push and a fetch don't load what only a run with a turn needs."""
    world.started()
    world.commit({"more": "1\n"})
    for words in (["push", "origin", "main"], ["fetch", "-q", "origin"]):
        done = world.run(*words, more={"PYTHONPROFILEIMPORTTIME": "1"})
        assert done.status == 0 and b"| tempfile\n" in done.err and b"ctypes" not in done.err


# ---- reads

READS = "read,readv,pread64,preadv,preadv2,mmap,sendfile,splice,copy_file_range"
READ = re.compile(r"^\w*read\w*\(\d+<([^>]*)>.* = (\d+)$", re.M)


def read_by(world: World, *words: str, where: str = "work") -> int:
    """How many bytes of the store a command of git reads, with all that it runs."""
    folder = world.folder / "traces"
    folder.mkdir()
    front = ["strace", "-ff", "-y", "-qq", "-s", "0", "-o", folder / "of", "-e", f"trace={READS}"]
    place = {"cwd": world.folder / where, "env": world.environment}
    printed(run_program([*front, "git", *words], timeout=300, **place), ["git", *words])
    lines = [line for path in folder.iterdir() for line in path.read_text().splitlines()]
    of_store = [line for line in lines if f"<{world.remote}>" in line]
    sizes = [int(READ.match(line)[2]) for line in of_store]
    shutil.rmtree(folder)
    return sum(sizes)


@needs_strace
def test_reads_of_a_growing_store(world: World) -> None:
    """A clone reads at most 2.2 times the bytes of a growing store with annotated tags: a bundle
    reads what it looks through, and then what it sends. What brings nothing new reads a twentieth
    at most, whether the tags are there or not."""
    stream = b"blob\ndata 4000000\n%s\n" % bytes(4000000)
    stream += line_of_commits(1000, repeat(b"refs/heads/main"))
    stream += b"".join(TAG % (row, row) for row in range(1, 10))
    world.store("init", "--growing")
    world.store("import", stdin=stream)
    size = world.remote.stat().st_size
    assert read_by(world, "clone", "-q", world.url, "clone", where=".") <= 2.2 * size
    world.git("clone", "-q", "--no-tags", world.url, "bare", where=".")
    for where in ("clone", "bare"):
        for words in (["fetch"], ["pull", "-q"], ["ls-remote"], ["remote", "show", "origin"]):
            assert read_by(world, *words, where=where) <= size / 20, words
