"""Changes of a store from Python, between whose reading and writing nothing else writes it."""

from __future__ import annotations

import errno
import fcntl
import itertools
import os
import select
import signal
import subprocess
import sys
import threading
from collections.abc import Callable, Iterator
from contextlib import contextmanager
from pathlib import Path
from types import ModuleType

import pytest

from failing import Call, needs_faults, run_watched
from libraries import built, ginlarch, shared  # noqa: F401
from programs import EMPTY_STORE, TOP, Program
from store_files import branch_stream

MAIN = (
    b"commit refs/heads/main\nmark :1\ncommitter A <a@x> 1 +0000\ndata 0\n"
    b"M 100644 inline file\ndata 4\none\n\n"
    b"commit refs/heads/side\nmark :2\ncommitter A <a@x> 2 +0000\ndata 0\nfrom :1\n"
    b"M 100644 inline file\ndata 4\ntwo\n\n"
    b"commit refs/heads/main\nmark :3\ncommitter A <a@x> 3 +0000\ndata 0\nmerge :2\n"
    b"tag v1\nfrom :2\ntagger A <a@x> 4 +0000\ndata 3\none\n"
)
TIMES = itertools.count(10)


def on(branch: str, parent: str = "") -> bytes:
    """One more commit of a branch, or one behind another commit."""
    came = f"from {parent}\n" if parent else ""
    front = f"commit refs/heads/{branch}\ncommitter A <a@x> {next(TIMES)} +0000\ndata 0\n"
    return f"{front}{came}\n".encode()


@pytest.fixture(params=[2, 3], ids="version {}".format)
def store(request, gx: Program, tmp_path: Path) -> Path:
    path = tmp_path / "s.gx"
    path.write_bytes(EMPTY_STORE)
    if request.param == 3:
        gx.prints("grow", path)
    gx.prints("import", path, stdin=MAIN)
    return path


@pytest.fixture
def refs(gx: Program, store: Path) -> Callable[[], dict[str, str]]:
    """What the refs of the store hold."""

    def read() -> dict[str, str]:
        rows = gx.prints("refs", store).decode().splitlines()
        return {name: digits for digits, name in (row.split(" ", 1) for row in rows)}

    return read


def files_of(store: Path) -> list[tuple]:
    """What is in the folder of a store, and which file each is."""
    found = sorted(store.parent.iterdir())
    return [(path.name, path.stat().st_ino, path.read_bytes()) for path in found]


@contextmanager
def importers(gx: Program, store: Path, count: int) -> Iterator[None]:
    """Programs that import without a rest, each on a branch of its own."""
    stops = threading.Event()

    def work(branch: str) -> None:
        while not stops.is_set():
            parent = f"refs/heads/{branch}^0" if b"/" + branch.encode() + b"\n" in told() else ""
            gx.prints("import", store, stdin=on(branch, parent))

    def told() -> bytes:
        return gx.prints("refs", store)

    runs = [threading.Thread(target=work, args=[f"busy{number}"]) for number in range(count)]
    for run in runs:
        run.start()
    try:
        yield
    finally:
        stops.set()
        for run in runs:
            run.join()


@pytest.mark.parametrize(
    "stream",
    [
        pytest.param(on("new", "refs/heads/main^0"), id="new"),
        pytest.param(on("apart"), id="apart"),
        pytest.param(b"reset refs/heads/copy\nfrom refs/heads/side^0\n\n", id="copy"),
        pytest.param(on("main", "refs/heads/main~1"), id="forced"),
        pytest.param(b"reset refs/heads/main\nfrom refs/heads/main~1\n\n", id="back"),
        pytest.param(b"tag v2\nfrom refs/heads/main\ntagger A <a@x> 9 +0000\ndata 0\n", id="tag"),
        pytest.param(b"tag v1\nfrom refs/heads/main\ntagger A <a@x> 9 +0000\ndata 0\n", id="moved"),
        pytest.param(on("-\u00e4\"'", "refs/heads/main^0"), id="name"),
        pytest.param(b"reset HEAD\nfrom refs/heads/side^0\n\n", id="HEAD"),
    ],
)
def test_what_is_written(ginlarch: ModuleType, store: Path, refs, stream: bytes) -> None:
    """The refs as they were in memory, with all that they reach, in a store of the same version."""
    version = store.read_bytes()[:10]
    with ginlarch.Repository.change(store) as changed:
        changed.import_stream(stream, force=True)
        wanted, bodies = changed.refs, {name: changed[name] for name in changed.refs.values()}
        logs = {name: changed.log(name) for name in wanted}
    assert refs() == wanted
    with ginlarch.Repository.open(store) as again:
        assert {name: again[name] for name in again.refs.values()} == bodies
        assert {name: again.log(name) for name in wanted} == logs
    assert store.read_bytes()[:10] == version
    assert os.listdir(store.parent) == [store.name]


def test_nothing_changed(ginlarch: ModuleType, store: Path) -> None:
    before = files_of(store)
    with ginlarch.Repository.change(store) as changed:
        changed.import_stream(b"blob\ndata 1\nx\n")
        assert changed.file("main", "file") == b"one\n"
    assert files_of(store) == before


@pytest.mark.parametrize("raised", [KeyError, KeyboardInterrupt, SystemExit])
def test_exception(ginlarch: ModuleType, store: Path, raised: type) -> None:
    """The file stays, and nothing is left beside it."""
    before = files_of(store)
    with pytest.raises(raised), ginlarch.Repository.change(store) as changed:
        changed.import_stream(on("new"))
        raise raised
    assert files_of(store) == before
    with pytest.raises(ginlarch.Closed):
        changed.refs


def test_refused_stream(ginlarch: ModuleType, store: Path, refs) -> None:
    """One that is refused and taken care of is no reason to leave out the others."""
    with ginlarch.Repository.change(store) as changed:
        with pytest.raises(ginlarch.faults.NotFastForward):
            changed.import_stream(b"reset refs/heads/main\nfrom refs/heads/main~1\n\n")
        changed.import_stream(on("new"))
        wanted = changed.refs
    assert refs() == wanted and "refs/heads/new" in wanted


def test_beside_importers(ginlarch: ModuleType, gx: Program, store: Path, refs) -> None:
    """Each change comes in beside programs that import without a rest, and nothing of theirs is
    lost."""
    with importers(gx, store, 3):
        for number in range(5):
            with ginlarch.Repository.change(store) as changed:
                changed.import_stream(branch_stream(number))
    with ginlarch.Repository.open(store) as last:
        made = {row.name for row in map(last.__getitem__, last.log(*last.refs))}
        assert {f"refs/heads/branch{number}" for number in range(5)} <= last.refs.keys()
    text = store.read_bytes()
    assert text.count(b"\ncommit ") == len(made), "commits that no ref reaches any more"


def test_others_wait(ginlarch: ModuleType, gx: Program, store: Path) -> None:
    with ginlarch.Repository.change(store) as changed:
        done = gx("import", "--wait=0", store, stdin=on("other"))
        assert (done.status, done.err) == (1, b"gx: lock failed\n")
        with pytest.raises(ginlarch.StoreLocked), ginlarch.Repository.change(store, wait=0):
            pass
        with pytest.raises(ValueError, match="at the end"):
            changed.save()
        with pytest.raises(ValueError, match="at the end"):
            changed.save(f"{store.parent}/./{store.name}")
        changed.save(store.parent / "copy.gx")
    gx.prints("import", "--wait=0", store, stdin=on("other"))


def test_change_waits(ginlarch: ModuleType, store: Path, refs) -> None:
    with open(f"{store}.new", "wb") as held:
        os.chmod(held.fileno(), 0o600)
        fcntl.flock(held, fcntl.LOCK_EX)
        threading.Timer(0.5, lambda: fcntl.flock(held, fcntl.LOCK_UN)).start()
        with ginlarch.Repository.change(store, wait=60) as changed:
            changed.import_stream(on("new"))
    assert "refs/heads/new" in refs()


@needs_faults
def test_stream_that_is_not_written(gx: Program, shared: Path, store: Path) -> None:  # noqa: F811
    """Where that raises an exception, gx isn't given the rest of the stream all the same."""
    code = (
        "import sys\nfrom ginlarch import Repository\nwith Repository.change(sys.argv[1]) as r:\n"
        "    r.import_stream(sys.stdin.buffer.read())\n"
    )
    paths = {"PYTHONPATH": str(TOP / "python"), "GINLARCH_LIBRARY": str(shared)}
    how = {"env": {**gx.environment, **paths}, "cwd": store.parent}
    before, written = files_of(store), itertools.count(1)

    def judge(call: Call) -> int:
        is_stream = call.program().startswith("python3 -c") and call.place().startswith("pipe:")
        return errno.EIO if is_stream and next(written) == 2 else 0

    words = [sys.executable, "-c", code, store]
    done = run_watched(words, ["write"], judge, on("new"), 60, **how)
    assert done.status == 1 and b"OSError: [Errno 5]" in done.err, done
    assert [row for row in files_of(store) if row[0] == store.name] == before


def test_forked_process(ginlarch: ModuleType, store: Path) -> None:
    """One that goes on behind the `with` doesn't have this wait for it."""
    ours, theirs = os.pipe()
    with ginlarch.Repository.change(store):
        child = os.fork()
        if not child:
            select.select([ours], [], [], 30)
            os._exit(0)
    assert os.waitpid(child, os.WNOHANG) == (0, 0)
    os.write(theirs, b"x")
    os.waitpid(child, 0)
    for end in (ours, theirs):
        os.close(end)


@pytest.mark.parametrize("wait, raised", [(0.5, TypeError), ("1", TypeError), (-1, ValueError)])
def test_wait_of_another_kind(ginlarch: ModuleType, store: Path, wait, raised: type) -> None:
    with pytest.raises(raised), ginlarch.Repository.change(store, wait=wait):
        pass
    with ginlarch.Repository.open(store) as repository, pytest.raises(raised):
        repository.save(wait=wait)


def test_missing_file(ginlarch: ModuleType, tmp_path: Path) -> None:
    with pytest.raises(FileNotFoundError) as caught:
        with ginlarch.Repository.change(tmp_path / "gone.gx"):
            pass
    assert caught.value.filename == str(tmp_path / "gone.gx")
    assert os.listdir(tmp_path) == []


def test_killed(
    ginlarch: ModuleType, gx: Program, store: Path, shared: Path, refs  # noqa: F811
) -> None:
    """Who is killed in the middle holds nobody up, and has written nothing."""
    code = (
        "import sys\nfrom ginlarch import Repository\nwith Repository.change(sys.argv[1]) as r:\n"
        "    r.import_stream(sys.stdin.buffer.read())\n    print('in', flush=True)\n"
        "    import time; time.sleep(60)"
    )
    paths = {"PYTHONPATH": str(TOP / "python"), "GINLARCH_LIBRARY": str(shared)}
    words, pipe = [sys.executable, "-c", code, store], subprocess.PIPE
    environment = {**gx.environment, **paths}
    before = refs()
    with subprocess.Popen(words, stdin=pipe, stdout=pipe, env=environment) as child:
        child.stdin.write(on("new"))
        child.stdin.close()
        assert child.stdout.readline() == b"in\n"
        child.send_signal(signal.SIGKILL)
    gx.prints("import", "--wait=20", store, stdin=on("other"))
    assert refs().keys() == {*before, "refs/heads/other"}
    assert os.listdir(store.parent) == [store.name]


def test_writer_that_is_killed(ginlarch: ModuleType, store: Path, tmp_path: Path) -> None:
    """Where gx ends meanwhile, others may write, and so the change doesn't."""
    writer, told = tmp_path / "writer", tmp_path / "pid"
    writer.write_text(f'#!/bin/sh\necho $$ > {told}\nexec {os.environ["GX"]} "$@"\n')
    writer.chmod(0o755)
    with pytest.MonkeyPatch.context() as patched:
        patched.setenv("GX", str(writer))
        with pytest.raises(OSError), ginlarch.Repository.change(store) as changed:
            os.kill(int(told.read_text()), signal.SIGKILL)
            changed.import_stream(on("new"))
    with ginlarch.Repository.open(store) as last:
        assert "refs/heads/new" not in last.refs
