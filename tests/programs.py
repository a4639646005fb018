"""Programs that tests run, and what came of each."""

from __future__ import annotations

import contextlib
import subprocess
import sys
from collections import Counter
from collections.abc import Callable
from dataclasses import dataclass
from pathlib import Path
from typing import IO

TOP = Path(__file__).resolve().parent.parent
SCRIPTS = TOP / "scripts"
EMPTY_STORE = b"gxstore 2\nobjects 0\nrefs 0\nend\n"
Word = str | bytes | Path

# what the tests of this process did, by what is told of it at the end
counted: Counter[str] = Counter()


@dataclass(frozen=True)
class Done:
    """How a program ended, and what it wrote."""

    status: int
    out: bytes
    err: bytes


def run_program(
    words: list[Word], stdin: bytes | int | IO = b"", timeout: float = 60, **more
) -> Done:
    """Runs a program to its end.

    Standard input is given as bytes, or as a file; `more` is subprocess.run's.
    """
    counted["programs run"] += 1
    given = {"input": stdin} if isinstance(stdin, bytes) else {"stdin": stdin}
    how = {
        "stdout": subprocess.PIPE,
        "stderr": subprocess.PIPE,
        "timeout": timeout,
        **given,
        **more,
    }
    done = subprocess.run(words, **how)
    return Done(done.returncode, done.stdout or b"", done.stderr or b"")


def processes(is_wanted: Callable[[int], bool]) -> list[int]:
    """Those processes of which this holds, where they are still there."""
    found = []
    for path in Path("/proc").glob("[0-9]*"):
        with contextlib.suppress(OSError):
            found += [int(path.name)] if is_wanted(int(path.name)) else []
    return found


def reader_of(store: Path, gx: Path) -> list[Word]:
    """What reads a store whole: a program that uses nothing of gx, and gx itself where the store
    is a growing one, which that can't read."""
    with store.open("rb") as text:
        is_growing = text.read(10) == b"gxstore 3\n"
    checker = [sys.executable, SCRIPTS / "check_store.py", store]
    return [gx, "verify", store] if is_growing else checker


def printed(done: Done, words: list[Word]) -> bytes:
    """What a program printed that has to end with 0."""
    assert done.status == 0, f"{words}: status {done.status}\n{done.err.decode(errors='replace')}"
    return done.out


class Program:
    """The program gx, run by a call with its words."""

    def __init__(self, path: Path, environment: dict[str, str]):
        self.path, self.environment = path, environment

    def __call__(self, *words: Word, stdin: bytes = b"", **more) -> Done:
        return run_program([self.path, *words], stdin, **{"env": self.environment, **more})

    def prints(self, *words: Word, stdin: bytes = b"", **more) -> bytes:
        """What it prints, where it has to end with 0."""
        return printed(self(*words, stdin=stdin, **more), ["gx", *words])
