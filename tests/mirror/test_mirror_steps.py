"""Runs that end at some step, and others at the same time."""

from __future__ import annotations

import shutil
import signal
import threading

import pytest
from mirror_world import FAILED, Counted, World

# A step is a program that begins, a lock, or a file of the store's that is opened, renamed or
# removed. `site` runs this before the mirror.
ENDING = """
import errno, os, signal, sys

end, file, reached = map(os.environ.get, ("END", "FILE", "REACHED"))
steps = int(os.environ["STEPS"])

def look(event, words):
    global steps
    is_of_files = event in ("open", "os.rename", "os.remove") and str(words[0]).startswith(file)
    if is_of_files or event in ("subprocess.Popen", "fcntl.flock"):
        steps -= 1
        if steps == 0:
            open(reached, "w").close()
            if end == "killed":
                os.killpg(0, signal.SIGKILL)
            raise OSError(errno.EIO, "made to fail")

if os.path.basename(sys.argv[0]) == "gx-mirror":
    sys.addaudithook(look)
"""
STATUS = {"killed": -signal.SIGKILL, "failed": FAILED}


def ends_at(world: World, step: int, end: str, environment: dict[str, str]) -> bool:
    """Runs the mirror up to a step that kills it or fails. Answers whether there was one."""
    reached, folder = world.folder / "reached", str(world.folder)
    reached.unlink(missing_ok=True)
    (world.folder / "sitecustomize.py").write_text(ENDING)
    more = {"STEPS": str(step), "END": end, "FILE": str(world.store.path), "REACHED": str(reached)}
    env = {**environment, **more, "PYTHONPATH": folder, "TMPDIR": folder}
    done = world.mirror("--keep-days=1", env=env, timeout=600, start_new_session=True)
    assert done.status == (STATUS[end] if reached.exists() else 0), done
    return reached.exists()


def change_all(world: World, number: int) -> None:
    """A ref moves on, one is forced, one is new, one goes, HEAD changes, and what was noted is
    due."""
    repository = world.repository
    repository.commit("main")
    repository.commit("side", repository.refs()[b"refs/heads/main"])
    repository.commit(f"new{number}")
    repository.git("symbolic-ref", "HEAD", f"refs/heads/new{number}")
    if number:
        repository.delete(b"refs/heads/new%d" % (number - 1))
        world.store.age(1.5)


@pytest.fixture(params=[False, pytest.param(True, marks=pytest.mark.long)], ids=["once", "again"])
def meanwhile(
    request: pytest.FixtureRequest, world: World, counted: Counted
) -> dict[str, str]:
    """Where a mirror tries again, since an import always comes before its first push."""
    if not request.param:
        return world.environment
    stream, once = world.folder / "stream", world.folder / "once"
    stream.write_bytes(
        b"commit refs/heads/main\ncommitter A <a@x> 1 +0000\ndata 0\nfrom refs/heads/main^0\n\n"
    )
    other = f"{world.store.gx.path} import --wait=0 {world.store.path} < {stream} 2> /dev/null"
    counted.write("gx", f'if [ "$2" = import ] && mkdir {once} 2> /dev/null; then {other}; fi')
    return counted.environment


@pytest.mark.parametrize("end", ["killed", pytest.param("failed", marks=pytest.mark.long)])
def test_step_that_ends_a_run(world: World, end: str, meanwhile: dict[str, str]) -> None:
    """Whatever the step, the store has what its refs reached, and the next run makes it good."""
    step, is_ended = 0, True
    while is_ended:
        change_all(world, step)
        kept = world.reached(world.store.refs().values())
        shutil.rmtree(world.folder / "once", ignore_errors=True)
        step += 1
        is_ended = ends_at(world, step, end, meanwhile)
        assert kept <= world.store.names()
        world.follows("--keep-days=1")
        # what an import brought isn't in git
        ours = world.repository.git("cat-file", "--batch-all-objects", "--batch-check").split()
        noted = [digits for digits, _ in world.store.notes() if digits in ours]
        refs = world.repository.refs()
        wanted, found = kept | world.reached(refs.values()), world.store.names()
        assert wanted <= found if meanwhile is not world.environment else wanted == found
        assert kept <= world.reached([*noted, *refs.values()])
        assert set(world.store.files()) == {"s.gx", "s.gx.HEAD", "s.gx.dropped"}
    assert step > 20


def test_several_at_once(world: World) -> None:
    """Four runs at the same time, round by round: each ends well, and nothing goes unnoted."""
    for number in range(3):
        change_all(world, number)
        kept = world.reached(world.store.refs().values())
        ends = []
        runs = [
            threading.Thread(target=lambda: ends.append(world.mirror("--keep-days=1").status))
            for _ in range(4)
        ]
        for run in runs:
            run.start()
        for run in runs:
            run.join()
        assert ends == [0] * 4
        assert world.store.refs() == world.repository.refs()
        assert kept <= world.store.names()


def test_import_meanwhile(world: World, counted: Counted) -> None:
    """One that comes between the look at the refs and the import: what it brought is noted."""
    stream, once = world.folder / "stream", world.folder / "once"
    stream.write_bytes(
        b"commit refs/heads/main\ncommitter A <a@x> 1 +0000\ndata 4\nmine\n"
        b"from refs/heads/main^0\n\n"
    )
    other = f"{world.store.gx.path} import {world.store.path} < {stream}"
    counted.write("gx", f'[ "$2" != import ] || [ -e {once} ] || {{ touch {once}; {other}; }}')
    world.repository.commit("main")
    world.repository.commit("new")
    before = world.store.names()
    world.follows(env=counted.environment)
    brought = {row.split()[0] for row in world.repository.objects()}
    (mine,) = world.store.names() - before - brought
    assert world.store.notes() == [(mine, b"refs/heads/main")]


def test_imports_all_the_time(world: World, counted: Counted) -> None:
    """Where another program sets a branch before each of its imports, a mirror looks at the refs
    again behind the lock, and comes in. What went is noted."""
    stream, brought = world.folder / "stream", world.folder / "brought"
    stream.write_bytes(
        b"commit refs/heads/main\ncommitter A <a@x> 1 +0000\ndata 4\nmine\n"
        b"from refs/heads/main^0\n\n"
    )
    other = f"{world.store.gx.path} import --report {world.store.path} < {stream} 2>> {brought}"
    counted.write("gx", f'[ "$2" != import ] || {other}')
    world.repository.commit("main")
    world.follows(env=counted.environment)
    rows = [line.split() for line in brought.read_bytes().splitlines()]
    made = {row[1] for row in rows if row[2:] == [b"refs/heads/main"]}
    assert len(made) == 2
    noted = {digits for digits, _ in world.store.notes()}
    assert noted <= made <= world.store.names() and len(noted) == 1, "the last one, and all before"


@pytest.mark.parametrize("name", ["TERM", "HUP"])
def test_ended_runs_leave_nothing(world: World, counted: Counted, name: str) -> None:
    """The system ends a run, or a terminal that is closed does, with all that it runs."""
    world.repository.commit("main")
    world.follows()
    world.repository.commit("main")
    counted.write("gx", f'[ "$2" = import ] && kill -{name} 0')
    left = world.folder / "left"
    left.mkdir()
    env = {**counted.environment, "TMPDIR": str(left)}
    assert world.mirror(env=env, start_new_session=True).status == FAILED
    assert not list(left.iterdir()) and not list(world.folder.glob("*.new"))
    world.follows()
