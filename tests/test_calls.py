"""Runs the calls of crates/gx_calls/data, where `rt run` or `rt ci` has left the program gx_calls.

    pytest tests/test_calls.py           makes them, and turns one answer in each file
    pytest tests/test_calls.py --long    turns each answer, one after the other
"""

from __future__ import annotations

import os
import subprocess
from collections.abc import Iterator
from pathlib import Path

import pytest

from programs import TOP, counted

CRATE = TOP / "crates/gx_calls"
PROGRAM = CRATE / "out/gx_calls"
FILES = sorted((CRATE / "data").glob("*.calls"))

pytestmark = pytest.mark.skipif(
    not os.access(PROGRAM, os.X_OK), reason="rt run in crates/gx_calls makes the program"
)
each_file = pytest.mark.parametrize("file", FILES, ids=[file.name for file in FILES])


def ending(file: Path) -> tuple[int, str]:
    """The status with which the calls of a file end, and what is printed."""
    counted["runs of gx_calls"] += 1
    done = subprocess.run([PROGRAM, file.name], cwd=file.parent, capture_output=True, text=True)
    return done.returncode, done.stdout


def turned(file: Path) -> Iterator[tuple[int, str]]:
    """The text of a file with another answer, once for each that is told, and its line."""
    lines = file.read_text().split("\n")
    for place, line in enumerate(lines):
        front, is_told, answer = line.partition(" = " if line.startswith("$") else "= ")
        if not is_told or front and not line.startswith("$"):
            continue
        first = "z" if answer[:1] == "y" else "y"
        other = f"{front}{is_told}{first}{answer[1:]}"
        yield place + 1, "\n".join([*lines[:place], other, *lines[place + 1 :]])


@each_file
def test_calls(file: Path) -> None:
    status, told = ending(file)
    assert status == 0, told
    assert told in (CRATE / "stdout").read_text()


@each_file
def test_turned_answers(file: Path, tmp_path: Path, request: pytest.FixtureRequest) -> None:
    """A file with an answer turned has to fail."""
    spoiled = tmp_path / file.name
    for number, text in turned(file):
        spoiled.write_text(text)
        status, told = ending(spoiled)
        assert status == 1 and told, f"another answer isn't seen in line {number}"
        if not request.config.getoption("long"):
            break
