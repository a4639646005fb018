"""What commands take of memory beside the store that they work on."""

from __future__ import annotations

import resource
import sys
from pathlib import Path

import pytest

from growing_texts import GrowingText, Record
from programs import Program, printed, run_program
from store_files import COMMIT, COMMITTED, named

SIZE = 40 << 20
ROOM = int(1.35 * SIZE) + (16 << 20)


@pytest.fixture
def large(new_store) -> Path:
    """A store with a blob that is nearly all of it."""
    blob = b"blob\nmark :1\ndata %d\n%s\n" % (SIZE, b"x" * SIZE)
    commit = b"commit refs/heads/main\ncommitter A <a@b> 1 +0000\ndata 0\nM 100644 :1 file\n"
    return new_store(blob + commit + b"reset refs/heads/other\nfrom refs/heads/main\n")


@pytest.mark.parametrize(
    "words", ["drop FILE refs/heads/other", "gc FILE", "gc --keep=/dev/null FILE"]
)
def test_next_text_goes_out_as_it_is_made(gx: Program, large: Path, words: str) -> None:
    given = [large if word == "FILE" else word for word in words.split()]
    gx.prints(*given, preexec_fn=lambda: resource.setrlimit(resource.RLIMIT_AS, (ROOM, ROOM)))


LITTLE = 10 << 20
QUESTIONS = {
    "refs FILE": b"",
    "rev-parse FILE main^{tree}": b"",
    "show FILE main:test.txt": b"",
    "ls -r FILE main": b"",
    "log --format=raw FILE main": b"",
    "archive FILE main": b"",
    "bundle FILE": b"",
    "batch FILE": b"main\nmain:test.txt\nnone\n",
    "batch --check FILE": b"main\nmain:test.txt\nnone\n",
    "batch --command FILE": b"refs\narchive main\nlog main\nls -r main\n",
    "drop FILE refs/heads/main": b"",
    "gc FILE": b"",
}


@pytest.mark.parametrize("words", QUESTIONS)
def test_question_holds_what_it_shows(gx: Program, tmp_path: Path, words: str) -> None:
    """A question to a growing store has no room for an object that it doesn't ask for."""
    objects = [*COMMITTED, ("blob", bytes(12 << 20))]
    records = [
        Record(kind.encode(), bytes.fromhex(named(kind, body)), body) for kind, body in objects
    ]
    growing = GrowingText()
    growing.append(records, {b"refs/heads/main": bytes.fromhex(COMMIT)})
    store = tmp_path / "store"
    store.write_bytes(growing.text())
    given = [store if word == "FILE" else word for word in words.split()]
    limit = (LITTLE, LITTLE)
    how = {"preexec_fn": lambda: resource.setrlimit(resource.RLIMIT_AS, limit)}
    gx.prints(*given, stdin=QUESTIONS[words], **how)


BLOCK = 96 << 20
# runs a program, and prints the most memory that it had: a small process, since a child begins with what its parent has
MEASURED = """
import resource, subprocess, sys
subprocess.run(sys.argv[1:], check=True)
print(resource.getrusage(resource.RUSAGE_CHILDREN).ru_maxrss)
"""
# what stands before a blob of so many bytes, and behind it
WRITTEN = {
    "counted": (b"blob\nmark :1\ndata %d\n" % BLOCK, b"\n"),
    "delimited": (b"blob\nmark :1\ndata <<END\n", b"\nEND\n"),
    "inline": (
        b"commit refs/heads/main\ncommitter A <a@b> 1 +0000\ndata 0\n"
        b"M 100644 inline file\ndata %d\n" % BLOCK,
        b"\n",
    ),
}


@pytest.mark.parametrize("form", WRITTEN)
def test_large_blob_is_in_memory_once(gx: Program, tmp_path: Path, form: str) -> None:
    store, stream = tmp_path / "store", tmp_path / "stream"
    gx.prints("init", store)
    before, behind = WRITTEN[form]
    with stream.open("wb") as file:
        file.write(before)
        for _ in range(BLOCK >> 20):
            file.write(b"x" * (1 << 20))
        file.write(behind)
    words = [sys.executable, "-c", MEASURED, gx.path, "import", store]
    with stream.open("rb") as file:
        used = printed(run_program(words, stdin=file, env=gx.environment), words)
    assert store.stat().st_size > BLOCK
    assert int(used) * 1024 < 1.2 * BLOCK
