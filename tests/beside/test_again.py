"""Exports stores and imports the exports again, by gx and by git.

The refs, the names of all commits with their parents, and the export of what was imported have to
be the same, and git has to find no fault in what it took.

    pytest tests/beside/test_again.py --stream FILE     of a stream
    pytest tests/beside/test_again.py --long            of many histories, and of this repository's
"""

from __future__ import annotations

import sys

import pytest
from histories import Step, histories
from hypothesis import given
from places import MakePlaces, Places, Store, same
from programs import TOP, printed, run_program


def commits_of(store: Store) -> list[bytes]:
    """Each commit that a ref reaches, with its parents."""
    refs = [line.split(b" ", 1)[1] for line in store.refs().splitlines()]
    if not refs:
        return []
    return sorted(store.prints("log", "--parents", store.path, "--", *refs).splitlines())


def compare(store: Store, places: Places) -> None:
    refs, commits = store.refs(), commits_of(store)
    export = store.prints("export", store.path)
    again, git = places.store("again.gx"), places.repository("again.git")
    again.take(export)
    same(again.refs(), refs, "gx export, then gx import: refs")
    same(commits_of(again), commits, "gx export, then gx import: commits")
    same(again.prints("export", again.path), export, "gx export, then gx import: the export")
    git.take(export)
    same(git.refs(), refs, "gx export, then git fast-import: refs")
    of_git = git.git("rev-list", "--parents", "--all").splitlines()
    same(sorted(of_git), commits, "gx export, then git fast-import: commits")
    git.git("fsck", "--strict", "--no-dangling", "--no-progress")


def compare_stream(stream: bytes, places: Places) -> None:
    store = places.store("store.gx")
    store.take(stream)
    compare(store, places)


@given(steps=histories(20))
def test_histories(steps: list[Step], new_places: MakePlaces) -> None:
    with new_places() as places:
        origin, store = places.origin()
        for step in steps:
            origin.follow(step)
        store.follow(origin)
        compare(store, places)


@pytest.mark.parametrize("words", ["history 60", "mixed 200"])
def test_generated(words: str, places: Places) -> None:
    command = [sys.executable, TOP / "bench/streams.py", *words.split()]
    compare_stream(printed(run_program(command), command), places)


def test_stream(stream: bytes, places: Places) -> None:
    compare_stream(stream, places)
