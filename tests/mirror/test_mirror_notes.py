"""What refs let go is noted, and stays in the store for some days."""

from __future__ import annotations

import pytest
from mirror_world import FAILED, NOTHING, STAYS, Counted, World


def test_notes(world: World) -> None:
    """A deleted ref, a forced one, a moved tag, and one that only went on."""
    repository, held = world.repository, world.store.refs()
    repository.delete(b"refs/heads/side")
    repository.git("tag", "-f", "-m", "Two", "v1", "main")
    repository.commit("main")
    world.follows()
    gone = [(held[ref], ref) for ref in (b"refs/heads/side", b"refs/tags/v1")]
    assert world.store.notes() == sorted(gone)
    last = repository.refs()[b"refs/heads/main"]
    repository.commit("main", held[b"refs/heads/main"])
    world.follows()
    gone.append((last, b"refs/heads/main"))
    assert world.store.notes() == sorted(gone)
    assert {digits for digits, _ in gone} <= world.store.names()


def test_branch_that_another_has(world: World) -> None:
    """It is forced, but what it lets go is another's: the note comes when that one goes."""
    repository = world.repository
    last = repository.commit("main")
    repository.git("branch", "copy", "main")
    world.follows()
    repository.git("update-ref", "refs/heads/main", "main~1")
    world.follows()
    assert world.store.notes() == []
    repository.delete(b"refs/heads/copy")
    world.follows()
    assert world.store.notes() == [(last, b"refs/heads/copy")]


def test_branch_that_stays(world: World) -> None:
    """What it holds in git is no reason to let go of what the store has."""
    repository = world.repository
    last = repository.commit("main")
    world.follows()
    repository.set({b"refs/heads/early": repository.early(last, last)})
    repository.commit("main", b"main~1")
    assert world.mirror().status == STAYS
    assert world.store.notes() == [(last, b"refs/heads/main")]


def test_days(world: World) -> None:
    """What was let go goes once it is old, with all below it, and not before."""
    repository = world.repository
    first = repository.commit("first", above=repository.commit("first", below=b"x"))
    second = repository.commit("second")
    world.follows()
    repository.delete(b"refs/heads/first")
    world.follows()
    world.store.age(10)
    repository.delete(b"refs/heads/second")
    world.follows()
    world.store.age(3.9)
    assert b"pruned" not in world.follows().err
    assert {first, second} <= world.store.names()
    world.store.age(0.2)
    assert b"pruned objects: 6" in world.follows().err
    assert first not in world.store.names() and second in world.store.names()
    assert b"pruned" not in world.follows().err
    assert b"pruned objects: 3" in world.follows("--keep-days=3").err
    assert world.store.records() == repository.objects()
    assert not world.store.beside(".dropped").exists()


def test_no_days(world: World) -> None:
    world.repository.delete(b"refs/heads/side")
    world.follows("--keep-days=0")
    assert world.store.records() == world.repository.objects()
    assert not world.store.beside(".dropped").exists()


def test_nothing_due(world: World, counted: Counted) -> None:
    world.repository.delete(b"refs/heads/side")
    world.follows()
    files = world.store.files()
    world.mirror(env=counted.environment)
    assert (counted.runs("gx"), world.store.files()) == (["refs"], files)


@pytest.mark.parametrize("line", [b"1 2 refs/heads/x\n", b"x\n", b"1 %s refs/heads/x" % NOTHING])
def test_lines_of_another_form(world: World, line: bytes) -> None:
    world.store.beside(".dropped").write_bytes(line)
    world.repository.delete(b"refs/heads/side")
    world.stops(FAILED, "line 1 isn't SECONDS DIGITS REF")


@pytest.mark.parametrize("to", ["2>/dev/full", "2>&-", "2> >(exec true)"])
def test_nothing_can_be_told(world: World, to: str) -> None:
    """A full or closed standard error, as of a daemon, keeps neither a ref nor a note."""
    held = world.store.refs()
    world.repository.delete(b"refs/heads/side")
    script = world.folder / "silent"
    script.write_text(f'#!/bin/bash\nexec "$@" {to}\n')
    script.chmod(0o755)
    world.follows(front=[str(script)])
    assert world.store.notes() == [(held[b"refs/heads/side"], b"refs/heads/side")]
