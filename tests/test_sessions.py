"""Runs the sessions of crates/gx_sessions/data, each in a folder of its own.

    pytest tests/test_sessions.py                   runs all of them
    pytest tests/test_sessions.py --session FILE    runs those of a file
    pytest tests/test_sessions.py -k spoiled        turns a byte of one answer in each file
"""

from __future__ import annotations

from pathlib import Path

import pytest

from programs import TOP, counted
from sessions import Runner, Session, sessions_of, spoil


def pytest_generate_tests(metafunc: pytest.Metafunc) -> None:
    named = metafunc.config.getoption("session")
    files = [Path(name) for name in named] or sorted(
        (TOP / "crates/gx_sessions/data").glob("*.session")
    )
    if "session" in metafunc.fixturenames:
        found = [session for file in files for session in sessions_of(file) if not session.short]
        metafunc.parametrize("session", found, ids=[f"{it.file.name}:{it.number}" for it in found])
    if "file" in metafunc.fixturenames:
        metafunc.parametrize("file", files, ids=[file.name for file in files])


def test_session(session: Session, gx_path: Path, tmp_path: Path) -> None:
    counted["commands of sessions"] += len(session.steps)
    wrong = Runner(gx_path, tmp_path).first_wrong(session)
    if wrong:
        pytest.fail(f"{session.title}\n{wrong[1]}", pytrace=False)


def test_spoiled(file: Path, gx_path: Path, tmp_path: Path) -> None:
    """A file with one byte of an answer turned has to fail there."""
    for session in sessions_of(file):
        spoiled = next((step for step in session.steps if spoil(step)), None)
        if spoiled and not session.short:
            wrong = Runner(gx_path, tmp_path).first_wrong(session)
            assert (
                wrong and wrong[0] is spoiled
            ), f"a turned byte isn't seen below: $ {spoiled.text}"
            return
    pytest.skip("no answer has a byte to turn")
