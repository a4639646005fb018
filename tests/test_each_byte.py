"""Inputs that end or fail at each byte, and outputs that take no more behind each byte."""

from __future__ import annotations

import os
import re
import signal
from collections.abc import Callable, Iterator
from dataclasses import dataclass
from pathlib import Path

import pytest

from programs import EMPTY_STORE, Done, Program, run_program
from sessions import failing
from streams import BLOBS, FIRST, MENDED, MERGED, MODES, ROUGH, ROUGH_LINES, VERSION, WIDE


def run_failing(gx: Program, *words: str | Path, front: bytes) -> Done:
    """Runs gx over an input that fails behind these bytes."""
    descriptor, area = failing(front)
    try:
        return gx(*words, stdin=descriptor)
    finally:
        os.close(descriptor)
        del area


def test_failed_read_leaves_the_store(gx: Program, new_store) -> None:
    store = new_store(FIRST)
    before = store.read_bytes()
    for count in range(len(MERGED) + 1):
        done = run_failing(gx, "import", store, front=MERGED[:count])
        assert (done.status, done.out) == (1, b"")
        assert re.fullmatch(rb"gx: command [0-9]+: ReadFailed\n", done.err), f"behind {count}"
        assert store.read_bytes() == before


def test_failed_read_of_blobs_is_no_end(gx: Program) -> None:
    names = gx.prints("blobs", stdin=BLOBS)
    for count in range(len(BLOBS)):
        done = run_failing(gx, "blobs", front=BLOBS[:count])
        assert done.status == 1
        assert re.fullmatch(rb"gx: command [0-9]+: ReadFailed\n", done.err), f"behind {count}"
        assert names.startswith(done.out)


def test_cut_export_is_refused(gx: Program, new_store) -> None:
    """An export ends with `done`, whose line needs no line feed."""
    text = gx.prints("export", new_store(MERGED)).removesuffix(b"\n")
    store = new_store(name="again")
    for count in range(1, len(text)):
        done = gx("import", store, stdin=text[:count])
        assert (done.status, done.out) == (1, b""), f"behind {count}"
        assert not done.err.endswith(b": ReadFailed\n")
        assert store.read_bytes() == EMPTY_STORE
    gx.prints("import", store, stdin=text)


Told = Callable[[int], str]


def written_at_the_end(place: int) -> str:
    return "write failed"


def behind_progress(place: int) -> str:
    """The fault of a command whose import prints a line of 11 bytes before it."""
    return "command 1: WriteFailed" if place < 11 else "write failed"


def at_each_name(place: int) -> str:
    """That of names of 40 digits, each in a line of its command."""
    return f"command {place // 41 + 1}: WriteFailed"


def at_each_line(place: int) -> str:
    """That of two lines of progress, the first of 13 bytes."""
    return f"command {place // 13 % 2 + 1}: WriteFailed"


def at_command(number: int) -> Told:
    return lambda place: f"command {number}: WriteFailed"


@dataclass(frozen=True)
class Case:
    """A command over a stream's store, what it reads, and what is told where it can't write."""

    words: str
    stream: bytes = b""
    stdin: bytes = b""
    told: Told = written_at_the_end
    status: int = 0


CASES = [
    Case("rev-parse STORE main main", FIRST),
    Case("refs STORE", FIRST),
    Case("refs STORE", VERSION.removeprefix(b"progress x\n")),
    Case("export STORE", MERGED),
    Case("export STORE", MODES),
    Case("export --changes STORE", MERGED),
    Case("bundle STORE", MERGED),
    Case("archive STORE main:", FIRST),
    Case("log --parents STORE a b", MERGED),
    Case("ls -r STORE main", WIDE),
    Case("adapt", stdin=ROUGH, status=3),
    Case("adapt", stdin=ROUGH_LINES, status=3),
    Case("where 2", stdin=MENDED),
    Case("batch STORE", FIRST, b"main:test.txt\n"),
    Case("batch --check STORE", FIRST, b"main:test.txt\nmain:test.txt\n"),
    Case("try main^{tree}", stdin=WIDE),
    Case("try main", stdin=VERSION, told=behind_progress),
    Case("check", stdin=VERSION, told=behind_progress),
    Case("blobs", stdin=BLOBS, told=at_each_name),
    Case("import STORE", stdin=b"progress a b\nprogress \nfoo\n", told=at_each_line, status=1),
    Case("import STORE", FIRST, b"progress x\n" + MERGED, told=at_command(1)),
    Case("import STORE", FIRST, MERGED + b"progress x\n", told=at_command(5)),
]


@pytest.fixture
def ignored_signal() -> Iterator[None]:
    """The signal of a file that is too large is ignored, and so by the programs that are run."""
    before = signal.signal(signal.SIGXFSZ, signal.SIG_IGN)
    yield
    signal.signal(signal.SIGXFSZ, before)


@pytest.mark.parametrize("case", CASES, ids=lambda case: f"{case.words} {len(case.stdin)}")
def test_failed_write_keeps_a_front(
    gx: Program, new_store, ignored_signal: None, tmp_path: Path, case: Case
) -> None:
    store, out = new_store(case.stream), tmp_path / "out"
    before = store.read_bytes()
    words = [store if word == "STORE" else word for word in case.words.split()]
    done = gx(*words, stdin=case.stdin)
    assert done.status == case.status and done.out
    store.write_bytes(before)
    # an archive is mostly of zeros
    step = 97 if len(done.out) > 4096 else 1
    for place in [*range(0, len(done.out), step), len(done.out) - 1]:
        with out.open("wb") as file:
            full = run_program(
                ["prlimit", f"--fsize={place}", gx.path, *words],
                case.stdin,
                env=gx.environment,
                restore_signals=False,
                stdout=file,
            )
        assert (full.status, full.err) == (1, f"gx: {case.told(place)}\n".encode()), place
        assert out.read_bytes() == done.out[:place]
        assert store.read_bytes() == before
