"""What `gc --keep` leaves besides what refs reach, beside git's reachable objects."""

from __future__ import annotations

import random
from collections.abc import Callable
from pathlib import Path

import pytest

from programs import Program

Git = Callable[..., bytes]


def write_history(git: Git, folder: Path, randoms: random.Random) -> list[str]:
    """A repository of branches that part and meet, with tags. Answers its refs."""
    git("init", "-q", "-b", "main", folder)
    for number in range(12):
        name = randoms.choice(["a", "b", "d/a", "d/b", "d/e/f"])
        path = folder / name
        path.parent.mkdir(parents=True, exist_ok=True)
        path.write_text(f"{randoms.randrange(6)}\n")
        git("add", "-A", cwd=folder)
        git("commit", "-q", "--allow-empty", "-m", str(number), cwd=folder)
        git("branch", f"b{number}", cwd=folder)
        if number % 3 == 0:
            git("tag", "-a", "-m", "t", f"t{number}", cwd=folder)
        git("checkout", "-q", f"b{randoms.randrange(number + 1)}", cwd=folder)
    return git("for-each-ref", "--format=%(refname)", cwd=folder).decode().split()


def reached(git: Git, folder: Path, names: list[str]) -> set[str]:
    """The objects that git reaches from these, each with itself."""
    if not names:
        return set()
    words = ["rev-list", "--objects", "--no-object-names", "--stdin"]
    return set(git(*words, cwd=folder, stdin="\n".join(names).encode()).decode().split())


def held(gx: Program, store: Path, names: set[str]) -> set[str]:
    """Those of these names that a store has an object of."""
    asked = sorted(names)
    lines = "".join(f"{name}\n" for name in asked).encode()
    answers = gx.prints("batch", "--check", store, stdin=lines).splitlines()
    assert len(answers) == len(asked)
    return {name for name, answer in zip(asked, answers) if not answer.endswith(b" missing")}


def same_case(name: str) -> str:
    return name


@pytest.mark.parametrize("spelled", [same_case, str.upper])
def test_kept_objects_are_those_that_git_reaches(
    gx: Program, git: Git, new_store, tmp_path: Path, randoms: random.Random, spelled
) -> None:
    refs = write_history(git, tmp_path / "repository", randoms)
    folder = tmp_path / "repository"
    store = new_store(git("fast-export", "--all", "--full-tree", cwd=folder))
    everything = reached(git, folder, refs)
    assert held(gx, store, everything) == everything
    for _ in range(4):
        left = randoms.sample(refs, randoms.randrange(1, len(refs)))
        kept = randoms.sample(sorted(everything), randoms.randrange(4))
        copy = tmp_path / "copy"
        copy.write_bytes(store.read_bytes())
        gone = [ref for ref in refs if ref not in left]
        gx.prints("drop", "--stdin", copy, stdin="".join(f"{ref}\n" for ref in gone).encode())
        names = tmp_path / "names"
        names.write_text("".join(f"{spelled(name)}\n" for name in [*kept, "0" * 40]))
        told = gx("gc", "--report", f"--keep={names}", copy)
        wanted = reached(git, folder, [*left, *kept])
        assert held(gx, copy, everything) == wanted
        assert told.status == 0
        gone_objects = len(everything) - len(wanted)
        assert told.err.startswith(b"gx: pruned objects: %d, bytes: " % gone_objects)


def test_kept_commit_can_be_a_ref_again(
    gx: Program, git: Git, new_store, tmp_path: Path, randoms: random.Random
) -> None:
    write_history(git, tmp_path / "repository", randoms)
    store = new_store(git("fast-export", "--all", "--full-tree", cwd=tmp_path / "repository"))
    before = gx.prints("export", store)
    name = gx.prints("rev-parse", store, "refs/heads/b3").strip().decode()
    gx.prints("drop", store, "refs/heads/b3")
    names = tmp_path / "names"
    names.write_text(name)
    gx.prints("gc", f"--keep={names}", store)
    gx.prints("import", store, stdin=f"reset refs/heads/b3\nfrom {name}\n".encode())
    assert gx.prints("export", store) == before


def test_line_that_is_no_name_is_refused(gx: Program, new_store, tmp_path: Path) -> None:
    store = new_store(b"blob\ndata 1\nx\n")
    before = store.read_bytes()
    names = tmp_path / "names"
    for bad in ["", "0" * 39, "0" * 41, "g" * 40, "0" * 40 + " refs/heads/main"]:
        names.write_text(f"{'0' * 40}\n{bad}\n")
        done = gx("gc", f"--keep={names}", store)
        assert (done.status, done.out, done.err) == (1, b"", b"gx: keep 2: BadLine\n")
        assert store.read_bytes() == before


def test_names_that_cannot_be_read_are_refused(gx: Program, new_store, tmp_path: Path) -> None:
    store = new_store(b"blob\ndata 1\nx\n")
    before = store.read_bytes()
    for names in [tmp_path / "none", tmp_path]:
        done = gx("gc", f"--keep={names}", store)
        assert (done.status, done.err) == (1, b"gx: read failed\n")
        assert store.read_bytes() == before
    done = gx("gc", f"--keep={tmp_path / 'none'}", tmp_path / "no-store")
    assert done.err == b"gx: read failed\n"
