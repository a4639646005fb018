"""Standard streams that are closed or come in pieces, answers that go out before more is read, and
names of files in what is told.
"""

from __future__ import annotations

import hashlib
import select
import socket
import struct
import subprocess
from collections.abc import Iterator
from contextlib import contextmanager
from pathlib import Path

import pytest

from programs import EMPTY_STORE, Done, Program, counted, run_program
from streams import BLOBS, ROUGH_LINES

COMMIT = b"commit refs/heads/main\ncommitter A <a@b> 1 +0000\ndata 1\nm\n"


def run_closed(gx: Program, closed: str, *words: str | Path):
    """Runs gx by a shell that closes standard streams first."""
    script = f'exec "$0" "$@" {closed}'
    return run_program(["sh", "-c", script, gx.path, *words], env=gx.environment)


@pytest.mark.parametrize(
    "words", ["refs FILE", "log --all FILE", "export FILE", "archive FILE main"]
)
def test_closed_output_fails(gx: Program, new_store, words: str) -> None:
    store = new_store(COMMIT)
    done = run_closed(gx, ">&-", *[store if word == "FILE" else word for word in words.split()])
    assert (done.status, done.out) == (1, b"")
    assert done.err in (b"gx: write failed\n", b"gx: export: WriteFailed\n")


def test_closed_input_fails(gx: Program, new_store) -> None:
    store = new_store(COMMIT)
    before = store.read_bytes()
    wanted = {
        ("import", store): b"gx: command 1: ReadFailed\n",
        ("drop", "--stdin", store): b"gx: read failed\n",
        ("batch", store): b"gx: read failed\n",
        ("log", "--stdin", store): b"gx: read failed\n",
        ("adapt",): b"gx: adapt: ReadFailed\n",
        ("where", "1"): b"gx: read failed\n",
    }
    for words, told in wanted.items():
        done = run_closed(gx, "<&-", *words)
        assert (words[0], done.status, done.out, done.err) == (words[0], 1, b"", told)
    assert store.read_bytes() == before


def test_closed_streams_are_no_files(gx: Program, new_store, tmp_path: Path) -> None:
    """No file gets the number of a closed stream, so that nothing is printed into the store."""
    store = new_store(COMMIT)
    before = store.read_bytes()
    for closed in ["<&- >&- 2>&-", "<&- >&-", ">&- 2>&-", "2>&-"]:
        done = run_closed(gx, closed, "gc", "--report", store)
        assert done.status == 0
        assert store.read_bytes() == before
    made = tmp_path / "made"
    assert run_closed(gx, "<&- >&- 2>&-", "init", made).status == 0
    assert made.read_bytes().startswith(b"gxstore ")


def test_names_are_quoted_where_they_are_told(gx: Program, new_store, tmp_path: Path) -> None:
    named = tmp_path / "a\x1b[31m\n"
    done = gx("--explain", "refs", named)
    lines = done.err.splitlines()
    assert (done.status, lines[0]) == (1, b"gx: read failed")
    assert lines[1].startswith(b'gx: "') and b"a\\033[31m\\n\": " in lines[1]
    assert len(lines) == 2


def test_name_of_an_option_s_file_is_told(gx: Program, new_store, tmp_path: Path) -> None:
    done = gx("--explain", "gc", f"--keep={tmp_path / 'none'}", new_store(COMMIT))
    assert done.err.startswith(b"gx: read failed\ngx: the file that an option names: ")


# ---- answers that go out before more is read


@contextmanager
def started(gx: Program, *words: str | Path) -> Iterator[subprocess.Popen]:
    """Runs gx behind the test, which writes and reads what isn't kept back."""
    counted["programs run"] += 1
    pipes = {"stdin": subprocess.PIPE, "stdout": subprocess.PIPE}
    with subprocess.Popen([gx.path, *words], bufsize=0, env=gx.environment, **pipes) as child:
        yield child


def taken(child: subprocess.Popen, count: int) -> bytes:
    """So many bytes of what comes, while nothing more is written."""
    got = b""
    while len(got) < count:
        assert select.select([child.stdout], [], [], 20)[0], f"nothing more than {got!r} comes"
        piece = child.stdout.read(count - len(got))
        assert piece, f"nothing comes behind {got!r}"
        got += piece
    return got


FILES = b"""\
commit refs/heads/main
committer A <a@x> 1 +0000
data 2
v1
M 100644 inline a
data 3
hi
M 160000 d670460b4b4aece5915caf5c68d12f560a9fe3e4 s
"""
HI = b"45b983be36b73c0788dc9cbcb76cbb80fc7bb057 blob 3\n"


@pytest.mark.parametrize("piece", [1, 7])
@pytest.mark.parametrize("words, body", [(["batch"], b"hi\n\n"), (["batch", "--check"], b"")])
def test_each_line_is_answered_at_once(
    gx: Program, new_store, words: list[str], body: bytes, piece: int
) -> None:
    answers = {
        b"main:a\n": HI + body,
        b"main:x\n": b"main:x missing\n",
        b"6bb2f9\n": b"6bb2f9 missing\n",
    }
    with started(gx, *words, new_store(FILES)) as child:
        for line, answer in answers.items():
            for at in range(0, len(line), piece):
                child.stdin.write(line[at : at + piece])
            assert taken(child, len(answer)) == answer
        child.stdin.close()
        assert child.stdout.read() == b"" and child.wait() == 0


def test_command_is_applied_before_more_is_read(gx: Program, new_store) -> None:
    """A command is known to be over at the line behind it, and nothing is read past that line."""
    line = b"progress a\n"
    with started(gx, "import", new_store()) as child:
        child.stdin.write(2 * line + b"pr")
        for _ in range(200):
            assert taken(child, len(line)) == line
            child.stdin.write(b"ogress a\npr")
        child.stdin.write(b"ogress a\n")
        child.stdin.close()
        assert child.stdout.read() == 3 * line and child.wait() == 0


# ---- inputs in pieces of any size


def in_pieces(gx: Program, *words: str | Path, text: bytes, size: int, fails: bool = False) -> Done:
    """Runs gx over a text of which each read gets a piece of this size.

    At its end reading ends, or it fails, since nothing comes for a while.
    """
    ours, theirs = socket.socketpair(socket.AF_UNIX, socket.SOCK_SEQPACKET)
    with ours, theirs:
        ours.setsockopt(socket.SOL_SOCKET, socket.SO_SNDBUF, 1 << 20)
        if fails:
            wait = struct.pack("ll", 0, 100_000)
            theirs.setsockopt(socket.SOL_SOCKET, socket.SO_RCVTIMEO, wait)
        for at in range(0, len(text), size):
            ours.send(text[at : at + size])
        if not fails:
            ours.shutdown(socket.SHUT_WR)
        return gx(*words, stdin=theirs)


NAMES = b"""\
d670460b4b4aece5915caf5c68d12f560a9fe3e4
e69de29bb2d1d6434b8b29ae775ad8c2e48c5391
bd9dbf5aae1a3862dd1526723246b20206e5fc37
"""
MENDED_LINES = b"""\
blob
mark :1
data 19
author <a> 1 +0000

commit refs/heads/a
author  <a> -1 +0000
committer A <a> 1 +0000
data 2
"a
M 100644 :1 "\\"a"

reset refs/heads/b

"""
# what is told of that; the file of marks is asked for by the first line
MENDED_COUNTS = b"""\
gx: identities that got a space: 1
gx: deletions left out: 1
gx: paths put in quotes: 1
gx: lines of marks left out: 1
gx: dates before 1970 that an import refuses: 1
gx: adapt: the stream ended without done
"""


@pytest.mark.parametrize("size", range(1, 65))
def test_blobs_in_pieces(gx: Program, size: int) -> None:
    assert in_pieces(gx, "blobs", text=BLOBS, size=size) == Done(0, NAMES, b"")


@pytest.mark.parametrize("size", range(1, 65))
def test_adapted_in_pieces(gx: Program, size: int) -> None:
    done = in_pieces(gx, "adapt", text=ROUGH_LINES, size=size)
    assert (done.status, done.out) == (3, MENDED_LINES)
    assert done.err.startswith(MENDED_COUNTS)


@pytest.mark.parametrize("size", range(1, 30))
def test_progress_before_a_failed_read(gx: Program, new_store, size: int) -> None:
    """Progress goes out as it comes, and stays out."""
    text, store = b"progress a\nprogress b\n", new_store()
    done = in_pieces(gx, "import", store, text=text, size=size, fails=True)
    assert done == Done(1, text, b"gx: command 3: ReadFailed\n")
    assert store.read_bytes() == EMPTY_STORE


LENGTHS = [2**64 - 1, 2**63, 2**63 - 1, 2**62]
COMMIT_LINES = b"commit refs/heads/main\ncommitter A <a@x> 1 +0000\n"


@pytest.mark.parametrize("size", range(1, 7))
@pytest.mark.parametrize(
    "front", [b"blob\n", COMMIT_LINES, COMMIT_LINES + b"data 0\nM 644 inline f\n"]
)
def test_length_takes_no_room(gx: Program, new_store, front: bytes, size: int) -> None:
    """A length that no memory has, with one byte behind it."""
    store = new_store()
    for length in LENGTHS:
        text = front + b"data %d\nx" % length
        done = in_pieces(gx, "import", store, text=text, size=size)
        assert done == Done(1, b"", b"gx: command 1: TruncatedData\n")
        assert store.read_bytes() == EMPTY_STORE


def test_large_blocks_are_whole_with_what_follows(gx: Program, new_store) -> None:
    """Blocks of many pieces, one behind the other, by the names that hashlib gives."""
    lengths = [(1 << 20) - 1, 1 << 20, (1 << 20) + 1, 5, 3 << 20, 0, 2 << 20]
    blobs = [(b"%d line\n" % number) * (length // 7 + 1) for number, length in enumerate(lengths)]
    blobs = [blob[:length] for blob, length in zip(blobs, lengths, strict=True)]
    stream = b"".join(
        b"blob\nmark :%d\ndata %d\n%s\n" % (mark, len(blob), blob)
        for mark, blob in enumerate(blobs, 1)
    )
    delimited = b"a line of a delimited block\n" * 50000
    stream += b"commit refs/heads/main\ncommitter A <a@b> 1 +0000\ndata <<END\nm\nEND\n"
    stream += b"".join(b"M 100644 :%d f%d\n" % (mark, mark) for mark in range(1, 8))
    stream += b"M 100644 inline f8\ndata <<END\n%sEND\nM 100644 inline f9\ndata 1\nx\n" % delimited
    names = [
        hashlib.sha1(b"blob %d\0%s" % (len(blob), blob)).hexdigest()
        for blob in [*blobs, delimited, b"x"]
    ]
    listed = gx.prints("ls", new_store(stream), "main").decode().splitlines()
    assert [line.split()[2] for line in listed] == names
