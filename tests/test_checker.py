"""scripts/check_store.py, which knows nothing of gx, takes the texts of stores, and no text with a
number, a name or a word changed."""

from __future__ import annotations

from pathlib import Path

import pytest

from programs import EMPTY_STORE, SCRIPTS, run_program
from store_files import NEW, OLD, WIDE


def is_taken(folder: Path, text: bytes) -> bool:
    path = folder / "checked"
    path.write_bytes(text)
    return run_program(["python3", SCRIPTS / "check_store.py", path]).status == 0


@pytest.mark.parametrize("text", [EMPTY_STORE, NEW, WIDE], ids=["empty", "new", "wide"])
def test_checker_takes(tmp_path: Path, text: bytes) -> None:
    assert is_taken(tmp_path, text)


@pytest.mark.parametrize(
    "old, new",
    [
        (b" 83ba", b" 83bb"),
        (b"\nversion 1", b"\nversion 2"),
        (b"\nobjects 4", b"\nobjects 5"),
        (b"\n02d6", b"\n12d6"),
        (b"\nrefs 1", b"\nrefs 2"),
        (b"\nend", b"\nEnd"),
    ],
)
def test_checker_refuses(tmp_path: Path, old: bytes, new: bytes) -> None:
    assert NEW.count(old) == 1
    assert not is_taken(tmp_path, NEW.replace(old, new))


def test_checker_refuses_version_1(tmp_path: Path) -> None:
    assert not is_taken(tmp_path, OLD)
