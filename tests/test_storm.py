"""Many programs write a store at once, and some of them are killed: no commit that was published is
lost, but what a command let go that named it.

Each actor has branches of its own, and knows what it was told. At the end the ledger is held
against the stores.
"""

from __future__ import annotations

import random
import time
from collections.abc import Callable
from pathlib import Path
from types import ModuleType

import pytest

from libraries import built, ginlarch, shared  # noqa: F401
from programs import Program, printed, run_program
from storms import (
    Changer,
    Claimer,
    Dropper,
    Follower,
    Importer,
    Mirror,
    Pusher,
    Saver,
    Setter,
    Storm,
    actors_of,
)

# what may stand beside the store, with what a mirror that was killed leaves
BESIDE = {"s.gx", *(f"s.gx.{file}" for file in ("HEAD", "dropped", "HEAD.new", "dropped.new"))}


def stands(storm: Storm, git: Callable[..., bytes]) -> None:
    """The store is whole, and has what was published, but what was let go."""
    storm.gx.prints("import", storm.path)
    ledger, refs, noted = storm.ledger, storm.refs(), storm.noted()
    told = [f"{what}: {count}" for what, count in sorted(ledger.counts.items())]
    counts = {"published": ledger.published, "let go": ledger.gone, "noted": noted}
    print(", ".join(told + [f"{what}: {len(found)}" for what, found in counts.items()]))
    lost = ledger.published - ledger.reached({*refs.values(), *noted}) - ledger.gone
    assert not lost, f"lost: {len(lost)}"
    assert {path.name for path in storm.folder.glob("s.gx*")} <= BESIDE
    copy = storm.folder / "copy"
    git("init", "-q", "--bare", copy)
    stream = storm.gx.prints("export", "--changes", storm.path, timeout=600)
    git("fast-import", "--quiet", cwd=copy, stdin=stream, timeout=600)
    git("fsck", "--no-dangling", cwd=copy, timeout=600)
    rows = git("for-each-ref", "--format=%(objectname) %(refname)", cwd=copy).decode().splitlines()
    assert {name: digits for digits, name in (row.split(" ", 1) for row in rows)} == refs


@pytest.fixture
def is_long(request: pytest.FixtureRequest) -> bool:
    return request.config.getoption("long")


@pytest.fixture
def storm(
    ginlarch: ModuleType,
    tmp_path: Path,
    gx: Program,
    shared: Path,
    is_long: bool,
    randoms: random.Random,
) -> Storm:
    end = time.monotonic() + (600 if is_long else 4)
    return Storm(tmp_path / "storm", gx, shared, end, randoms)


def test_writers(storm: Storm, git: Callable[..., bytes], is_long: bool) -> None:
    """Importers, droppers, pushers and the Python module, which lose nothing to each other, and of
    which each comes in."""
    more = 2 if is_long else 1
    kinds = {Importer: 2, Claimer: 1, Dropper: 2, Pusher: 3, Changer: 2, Saver: 1, Setter: 1}
    actors = actors_of(storm, {kind: some * more for kind, some in kinds.items()})
    storm.rage(actors, "imports", "claims", "pushes", "changes", "drops", "set-refs")
    assert not storm.dropped.exists()
    stands(storm, git)


def test_mirrors(storm: Storm, git: Callable[..., bytes]) -> None:
    """Mirrors let go of what others bring, and note all of it: nothing leaves the store."""
    first = Mirror(storm, "mirror")
    others = actors_of(storm, {Importer: 2, Pusher: 1, Changer: 1})
    storm.rage([first, Follower(storm, first), *others], "mirrors")
    stands(storm, git)
    asked = "".join(f"{digits}\n" for digits in storm.ledger.published).encode()
    assert b"missing" not in storm.gx.prints("batch", "--check", storm.path, stdin=asked)


def test_all(storm: Storm, git: Callable[..., bytes], is_long: bool) -> None:
    """All of them at once, also what leaves out what no ref reaches. A last mirror has the store
    hold what its source has."""
    few = {Importer: 1, Claimer: 1, Dropper: 1, Setter: 1, Pusher: 2, Changer: 1, Saver: 1}
    many = {Importer: 4, Claimer: 4, Dropper: 4, Setter: 2, Pusher: 20, Changer: 4, Saver: 2}
    first = Mirror(storm, "mirror")
    followers = [Follower(storm, first) for _ in range(2 if is_long else 1)]
    wanted = ("imports", "claims", "pushes", "changes", "drops", "set-refs", "mirrors")
    storm.rage([first, *followers, *actors_of(storm, many if is_long else few)], *wanted)
    stands(storm, git)
    printed(run_program(first.words(), env=storm.environment, timeout=300), ["gx-mirror"])
    assert storm.refs() == first.refs()
