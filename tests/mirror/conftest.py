"""What the tests of gx-mirror share."""

from __future__ import annotations

import shutil
from pathlib import Path

import pytest
from mirror_world import Counted, World
from programs import Program


@pytest.fixture(scope="session")
def made(
    tmp_path_factory: pytest.TempPathFactory, gx: Program, environment: dict[str, str]
) -> Path:
    """A repository with two branches and a tag, which a store follows."""
    world = World(tmp_path_factory.mktemp("made"), gx, environment)
    world.repository.commit("main")
    world.repository.commit("side", world.repository.commit("main"))
    world.repository.git("tag", "-m", "One", "v1", "main")
    world.follows()
    return world.folder


@pytest.fixture
def world(made: Path, tmp_path: Path, gx: Program, environment: dict[str, str]) -> World:
    shutil.copytree(made, tmp_path / "world", symlinks=True)
    return World(tmp_path / "world", gx, environment)


@pytest.fixture
def counted(tmp_path: Path, gx: Program, environment: dict[str, str]) -> Counted:
    return Counted(tmp_path / "counted", gx, environment)
