"""Histories made at random go through pushes and fetches of two clones of a store."""

from __future__ import annotations

import random
from collections.abc import Callable
from pathlib import Path

import pytest
from histories import History
from hypothesis import given, note
from hypothesis import strategies as st
from places import Repository
from programs import printed, reader_of, run_program
from remote_world import World

ALL_REFS = [["--mirror", "origin"], ["--force", "--prune", "origin", "refs/*:refs/*"]]


def clones_of(world: World) -> list[Repository]:
    """Two empty repositories, which share their marks."""
    names = ("one.git", "two.git")
    marks = world.folder / "marks"
    clones = [Repository(world.folder / name, world.environment, marks) for name in names]
    for clone in clones:
        clone.git("remote", "add", "origin", world.url)
        clone.git("config", "remote.origin.fetch", "+refs/*:refs/*")
    return clones


def follow(chance: random.Random, steps: int, world: World, tell: Callable[[str], None]) -> None:
    """Makes each step in one of the clones, pushes it, and fetches it into the other. `tell` gets
    the commands."""
    history, clones = History(chance), clones_of(world)
    for number in range(steps):
        here, there = chance.sample(clones, 2)
        if number:
            history.keep(here.keep_marks())
        gone, text = history.step()
        words = chance.choice(ALL_REFS)
        tell(f"in {here.path.name}: drop {gone}, git push {' '.join(words)} behind {text!r}")
        here.drop(gone)
        here.take(text, "--force")
        world.git("push", "-q", *words, where=here.path.name)
        world.git("fetch", "-q", "--prune", "origin", where=there.path.name)
        assert world.refs() == here.refs(), "refs of the store"
        assert there.refs() == here.refs(), "refs of the other clone"
    for clone in clones:
        clone.git("fsck", "--strict")
    words = reader_of(world.remote, world.gx)
    printed(run_program(words, env=world.environment), words)


@given(chance=st.randoms(use_true_random=False), steps=st.integers(1, 20))
def test_histories(
    chance: random.Random, steps: int, gx_path: Path, tmp_path_factory: pytest.TempPathFactory
) -> None:
    follow(chance, steps, World(tmp_path_factory.mktemp("history"), "store.gx", gx_path), note)


def test_history_of_a_seed(seed: int, gx_path: Path, tmp_path: Path) -> None:
    """One of twenty steps, which all follow from the seed."""
    follow(random.Random(seed), 20, World(tmp_path, "store.gx", gx_path), print)
