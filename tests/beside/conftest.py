"""What the tests share that compare gx with git."""

from __future__ import annotations

import tempfile
from collections.abc import Iterator
from contextlib import contextmanager
from pathlib import Path

import pytest
from places import MakePlaces, Places
from programs import TOP, Program, printed, run_program


def pytest_generate_tests(metafunc: pytest.Metafunc) -> None:
    """A test of a stream takes those that are named, or this repository's history."""
    if "stream" not in metafunc.fixturenames:
        return
    named = [Path(name).resolve() for name in metafunc.config.getoption("stream")]
    ids = [f"{stream.parent.name}/{stream.name}" for stream in named]
    own = pytest.param(None, id="this repository", marks=pytest.mark.long)
    metafunc.parametrize("stream", named or [own], ids=ids or None, indirect=True)


@pytest.fixture
def stream(request: pytest.FixtureRequest, gx: Program) -> bytes:
    if request.param:
        return request.param.read_bytes()
    words = ["git", "-C", TOP, "fast-export", "--all"]
    return printed(run_program(words, env=gx.environment), words)


@pytest.fixture(scope="session")
def new_places(gx: Program) -> MakePlaces:
    """Makes repositories and stores in a folder of their own, which goes with them."""

    @contextmanager
    def make() -> Iterator[Places]:
        with tempfile.TemporaryDirectory(prefix="gx-beside-", ignore_cleanup_errors=True) as name:
            yield Places(Path(name), gx)

    return make


@pytest.fixture
def places(new_places: MakePlaces) -> Iterator[Places]:
    with new_places() as made:
        yield made
