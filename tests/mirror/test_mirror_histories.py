"""A store follows a repository that changes at random."""

from __future__ import annotations

import random
import re
import shutil

import pytest
from histories import History
from hypothesis import given
from hypothesis import strategies as st
from mirror_world import NOTHING, Repository, World, lines_of
from programs import Program, reader_of, run_program

CHANGE = re.compile(rb"^([0-9a-f]{40}) ([0-9a-f]{40}) (refs/.*)$", re.M)


def take_step(world: World, history: History) -> None:
    """Commits, merges, roots, tags, moved and deleted refs."""
    marks, repository = world.folder / "marks", world.repository
    gone, text = history.step()
    repository.delete(*gone)
    kept = [f"--import-marks-if-exists={marks}", f"--export-marks={marks}"]
    repository.git("fast-import", "--quiet", "--force", *kept, stdin=text)


def forget(world: World, history: History) -> None:
    """Git loses what no ref reaches, and the history goes on from what is left."""
    marks, repository = world.folder / "marks", world.repository
    objects, forgotten = repository.folder() / "objects", world.folder / "forgotten"
    shutil.copytree(objects, forgotten, dirs_exist_ok=True)
    repository.git("gc", "-q", "--prune=now")
    rows = [line.split() for line in marks.read_bytes().splitlines()]
    told = repository.git("cat-file", "--batch-check", stdin=lines_of(row[1] for row in rows))
    left = [row for row, line in zip(rows, told.splitlines()) if not line.endswith(b" missing")]
    marks.write_bytes(lines_of(b" ".join(row) for row in left))
    history.keep({int(mark[1:]) for mark, _ in left})


def check_step(world: World) -> None:
    """The refs are git's, all that they reach is there, and what was told leads to them. What isn't
    reached any more is noted, or below what is."""
    is_there = world.store.path.exists()
    refs = world.store.refs() if is_there else {}
    had = world.store.names() if is_there else set()
    told = world.follows("--allow-empty").err
    after = world.store.refs()
    for old, new, ref in CHANGE.findall(told):
        assert refs.pop(ref, NOTHING) == old, ref
        refs.update({ref: new} if new != NOTHING else {})
    assert refs == after
    assert had <= world.store.names()
    noted = [digits for digits, _ in world.store.notes()]
    assert world.store.names() == world.reached([*noted, *after.values()])


@given(
    randoms=st.randoms(use_true_random=False),
    forgets=st.lists(st.booleans(), min_size=4, max_size=8),
)
def test_random_history(
    randoms: random.Random,
    forgets: list[bool],
    tmp_path_factory: pytest.TempPathFactory,
    gx: Program,
    environment: dict[str, str],
) -> None:
    """Each step is followed, and nothing gets lost until it is old. Then the store has just what
    git has, and git takes what it exports."""
    world = World(tmp_path_factory.mktemp("history"), gx, environment)
    history = History(randoms)
    for is_forgetting in forgets:
        take_step(world, history)
        if is_forgetting:
            forget(world, history)
        check_step(world)
    if world.store.beside(".dropped").exists():
        world.store.age(15)
    world.follows("--allow-empty")
    assert world.store.records() == world.repository.objects()
    assert run_program(reader_of(world.store.path, gx.path), env=environment).status == 0
    copy = Repository(world.folder / "copy", environment)
    copy.git("fast-import", "--quiet", "--done", stdin=gx.prints("export", world.store.path))
    assert copy.refs() == world.repository.refs()
    shutil.rmtree(world.folder)
