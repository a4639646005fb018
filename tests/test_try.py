"""`make` and scripts/try.sh: what a newcomer runs first, on a small repository of git."""

from __future__ import annotations

import re
import shutil
from pathlib import Path

import pytest

from programs import SCRIPTS, TOP, Done, run_program

needs_make = pytest.mark.skipif(shutil.which("make") is None, reason="make isn't there")


@pytest.fixture
def project(git, tmp_path: Path) -> Path:
    """A repository with a tag, a branch that was merged, and a HEAD of another one."""
    folder = tmp_path / "a project"
    git("init", "-q", "-b", "main", folder)
    (folder / "README").write_text("one\ntwo\n")
    git("add", ".", cwd=folder)
    git("commit", "-q", "-m", "One", cwd=folder)
    git("tag", "-m", "First", "v1", cwd=folder)
    git("checkout", "-q", "-b", "topic", cwd=folder)
    git("commit", "-q", "--allow-empty", "-m", "Two", cwd=folder)
    git("symbolic-ref", "refs/remotes/origin/HEAD", "refs/heads/main", cwd=folder)
    return folder


def tried(environment: dict[str, str], gx: Path, *words: Path) -> Done:
    return run_program([SCRIPTS / "try.sh", gx, *words], env=environment)


def test_try(environment, gx_path: Path, project: Path) -> None:
    done = tried(environment, gx_path, project)
    assert (done.status, done.err) == (0, b"")
    compared = re.findall(r"^  (.*): the same, all (\d+)$", done.out.decode(), re.M)
    assert compared == [("refs", "3"), ("refs", "3"), ("files of refs/heads/topic", "1")]
    assert b"\n  one\n  two\n" in done.out, "a file is shown"


@pytest.mark.parametrize(
    "command, change",
    [("refs", "s/^./0/"), ("ls", "1s/README/readme/"), ("export", "s/^One$/Own/")],
)
def test_try_tells_a_difference(
    environment, gx_path: Path, project: Path, tmp_path: Path, command: str, change: str
) -> None:
    """A program with a wrong answer, as refs of other names."""
    program = tmp_path / "gx"
    program.write_text(
        f'#!/bin/bash\nset -o pipefail\n[ "$1" = {command} ] || exec {gx_path} "$@"\n'
        f'{gx_path} "$@" | sed "{change}"\n'
    )
    program.chmod(0o755)
    done = tried(environment, program, project)
    assert done.status == 1
    assert b": not the same." in done.out


@pytest.mark.parametrize("kind", ["a file", "an empty repository", "nothing"])
def test_try_of_no_project(environment, git, gx_path: Path, tmp_path: Path, kind: str) -> None:
    place = tmp_path / "place"
    if kind == "a file":
        place.touch()
    elif kind == "an empty repository":
        git("init", "-q", place)
    done = tried(environment, gx_path, place)
    assert (done.status, done.out) == (1, b"")
    assert re.fullmatch(rb"try\.sh: [^\n]+\n", done.err)


def made(environment: dict[str, str], *words: str) -> Done:
    return run_program(["make", "--no-print-directory", *words], cwd=TOP, env=environment)


@needs_make
def test_make_tells_what_there_is(environment) -> None:
    done = made(environment)
    targets = re.findall(r"^  make (\S+) +\S", done.out.decode(), re.M)
    assert done.status == 0
    assert targets == "help try test prove gate bench docs install library dist library-try".split()


@needs_make
@pytest.mark.parametrize("words", [["prove"], ["prove", "CRATE=none"], ["bench", "WHAT=none"]])
def test_make_of_nothing(environment, words: list[str]) -> None:
    done = made(environment, *words)
    assert done.status == 2
    assert re.fullmatch(rb"Makefile:\d+: \*\*\* [^\n]+\.  Stop\.\n", done.err)


@needs_make
@pytest.mark.parametrize("target", ["try", "test"])
def test_make_without_git(environment, target: str, tmp_path: Path) -> None:
    """What isn't there is named in one line."""
    for name in ("awk", "bash", "find", "sh"):
        (tmp_path / name).symlink_to(shutil.which(name))
    words = [shutil.which("make"), target]
    done = run_program(words, cwd=TOP, env={**environment, "PATH": str(tmp_path)})
    assert done.status == 2
    assert re.fullmatch(rb"Makefile:\d+: \*\*\* git is missing\.  Stop\.\n", done.err)


def test_needs_are_there(environment) -> None:
    """These tests run, so nothing has to be installed."""
    assert run_program([SCRIPTS / "needs.sh"], env=environment) == Done(0, b"", b"")
