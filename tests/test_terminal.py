"""What gx tells at a terminal: the line that says how far an import, a try or an export is, and
what import, gc and adapt tell at their end. A file gets none of it, and standard output stays
the same.
"""

from __future__ import annotations

import io
import os
import pty
import re
import subprocess
import time
from collections.abc import Callable, Iterator
from pathlib import Path

import pexpect
import pytest
from pexpect.fdpexpect import fdspawn

from programs import EMPTY_STORE, Done, Program, counted

CLEAR = b"\r\x1b[K"
LINE = re.compile(rb"\rgx: (\d+)\.(\d) MB\x1b\[K")

# A stream in pieces. Of a short one, which is read at once, it is told what its line shows: the
# tenths of megabytes up to its end.
Pieces = list[tuple[bytes, int | None]]
PIECES: Pieces = [
    (b"feature done\nprogress a\nblob\nmark :1\ndata 500000\n", 0),
    (b"blob\n" * 60000, None),
    (b"blob\n" * 39000, None),
    (b"blob\n" * 800, 4),
    (
        b"blob\n" * 200 + b"\nblob\ndata <<END\ncheckpoint\nENDING\n\nreset refs/x\nEND\n# tag t\n",
        5,
    ),
    (
        b"commit refs/heads/main\nmark :2\ncommitter A <a@x> 1 +0000\ndata 4\ntag "
        b"M 100644 :1 checkpoint\n\nche",
        None,
    ),
    (
        b"ckpoint\n\nreset refs/heads/b\nfrom :2\n\ntag t\nfrom :2\ntagger A <a@x> 2 +0000\ndata 2\n"
        b"t\n\nprogress b\ndone\n",
        None,
    ),
]
STREAM = b"".join(piece for piece, _ in PIECES)
REPORT = b"gx: commands: 10, objects: 5, refs: 3\r\n"


def tenths(seen: bytes) -> list[int]:
    """The tenths of megabytes of each line that was shown."""
    return [int(whole) * 10 + int(tenth) for whole, tenth in LINE.findall(seen)]


def are_of_pieces(shown: list[int]) -> bool:
    """Whether the lines of all short pieces come in their order, and those between count up."""
    rest = iter(shown)
    return shown == sorted(shown) and all(
        wanted in rest for _, wanted in PIECES if wanted is not None
    )


def without_line(seen: bytes) -> bytes:
    return LINE.sub(b"", seen)


class Terminal:
    """A program that has a terminal as its standard error, and what it shows there."""

    def __init__(self, words: list[str | Path], folder: Path, **streams):
        counted["programs run"] += 1
        ours, theirs = pty.openpty()
        places = {
            "stdin": subprocess.DEVNULL,
            "stdout": subprocess.DEVNULL,
            "stderr": "terminal",
            **streams,
        }
        given = {name: theirs if place == "terminal" else place for name, place in places.items()}
        self.child = subprocess.Popen(words, cwd=folder, **given)
        os.close(theirs)
        self.screen = fdspawn(ours, timeout=10)
        self.log = io.BytesIO()
        self.screen.logfile_read = self.log

    def seen(self) -> bytes:
        return self.log.getvalue()

    def wait_for(self, text: bytes) -> None:
        self.screen.expect_exact(text)

    def feed(self, pieces: Pieces) -> None:
        """Writes pieces, each when the line is due again, and waits for what a short one shows."""
        for piece, shown in pieces:
            time.sleep(0.15)
            self.child.stdin.write(piece)
            self.child.stdin.flush()
            if shown is not None:
                self.wait_for(b"\rgx: %d.%d MB\x1b[K" % divmod(shown, 10))
        self.child.stdin.close()

    def end(self) -> int:
        """The exit status, once everything was shown."""
        self.screen.expect(pexpect.EOF, timeout=60)
        self.screen.close()
        return self.child.wait()

    def kill(self) -> None:
        if self.child.poll() is None:
            self.child.kill()
            self.child.wait()


@pytest.fixture
def at_terminal(gx: Program, tmp_path: Path) -> Iterator[Callable[..., Terminal]]:
    """Runs gx in the test's folder, with standard error at a terminal: at_terminal(WORD..,
    stdin=.., stdout=..).
    """
    running: list[Terminal] = []

    def run(*words: str, **streams) -> Terminal:
        running.append(Terminal([gx.path, *words], tmp_path, **streams))
        return running[-1]

    yield run
    for terminal in running:
        terminal.kill()


@pytest.fixture
def run(gx: Program, tmp_path: Path) -> Callable[..., Done]:
    """Runs gx in the test's folder, with standard error in a file."""
    return lambda *words, stdin=b"": gx(*words, stdin=stdin, cwd=tmp_path)


@pytest.fixture
def store(tmp_path: Path) -> Path:
    path = tmp_path / "store"
    path.write_bytes(EMPTY_STORE)
    return path


@pytest.fixture
def filled(store: Path, run: Callable[..., Done]) -> Path:
    assert run("import", "store", stdin=STREAM).status == 0
    return store


def show(at_terminal, pieces: Pieces, *words: str, tmp_path: Path) -> tuple[int, bytes, bytes]:
    """The status, what a terminal shows, and what standard output gets, of a stream in pieces."""
    with (tmp_path / "printed").open("w+b") as out:
        terminal = at_terminal(*words, stdin=subprocess.PIPE, stdout=out)
        terminal.feed(pieces)
        status = terminal.end()
        out.seek(0)
        return status, terminal.seen(), out.read()


def test_import(at_terminal, run, store: Path, tmp_path: Path) -> None:
    plain = run("import", "store", stdin=STREAM)
    assert plain == Done(0, b"progress a\nprogress b\n", b""), "in a file nothing is told"
    text = store.read_bytes()
    store.write_bytes(EMPTY_STORE)
    status, seen, printed = show(at_terminal, PIECES, "import", "store", tmp_path=tmp_path)
    assert status == 0
    assert store.read_bytes() == text
    assert printed == plain.out
    assert are_of_pieces(tenths(seen)), "the line counts bytes"
    assert without_line(seen) == CLEAR + REPORT, "the line goes, and the report stays"


def test_import_into_a_large_store(at_terminal, run, store: Path, tmp_path: Path) -> None:
    """Somebody at a terminal is told what makes questions fast, where the store hasn't it."""
    (tmp_path / "empty").touch()
    size = 100_000_000 - 87  # a store of one blob has 87 bytes beside it

    def told() -> bytes:
        with (tmp_path / "empty").open("rb") as stream:
            terminal = at_terminal("import", "store", stdin=stream)
        assert terminal.end() == 0
        report = b"gx: commands: 0, objects: 0, refs: 0\r\n"
        return without_line(terminal.seen()).replace(CLEAR, b"").partition(report)[2]

    for more, wanted in [(-1, b""), (0, b"gx: store has 100 MB: gx grow store makes questions fast\r\n")]:
        store.write_bytes(EMPTY_STORE)
        blob = b"blob\ndata %d\n" % (size + more) + bytes(size + more)
        assert run("import", "store", stdin=blob) == Done(0, b"", b""), "in a file nothing is told"
        assert store.stat().st_size == 100_000_000 + more
        assert told() == wanted
    assert run("grow", "store").status == 0
    assert told() == b"", "a growing store has its tables"


def test_refused_import(at_terminal, store: Path, tmp_path: Path) -> None:
    pieces = PIECES[:5] + [(b"foo\n", None)]
    status, seen, printed = show(at_terminal, pieces, "import", "store", tmp_path=tmp_path)
    before = b"".join(piece for piece, _ in PIECES[:5])
    place = b"gx: line %d, byte %d: foo\r\n" % (1 + before.count(b"\n"), len(before))
    assert status == 1
    assert without_line(seen) == CLEAR + b"gx: command 5: UnknownCommand\r\n" + place
    assert store.read_bytes() == EMPTY_STORE
    assert printed == b"progress a\n"


def test_one_terminal(at_terminal, store: Path) -> None:
    """Standard output is the terminal, too: a line of progress takes the place of the line."""
    terminal = at_terminal("import", "store", stdin=subprocess.PIPE, stdout="terminal")
    terminal.feed(PIECES)
    assert terminal.end() == 0
    kept = without_line(terminal.seen())
    # the line may stand before the first one, too
    assert kept.endswith(b"progress a\r\n" + CLEAR + b"progress b\r\n" + REPORT)
    assert (
        kept.replace(CLEAR, b"") == b"progress a\r\nprogress b\r\n" + REPORT
    ), "each line is whole"


def test_short_import(at_terminal, store: Path, tmp_path: Path) -> None:
    (tmp_path / "stream").write_bytes(b"blob\ndata 1\nx")
    with (tmp_path / "stream").open("rb") as stream:
        terminal = at_terminal("import", "store", stdin=stream)
    assert terminal.end() == 0
    # a slow run shows the line
    assert (
        without_line(terminal.seen()).replace(CLEAR, b"")
        == b"gx: commands: 1, objects: 1, refs: 0\r\n"
    )


def test_typed_import(at_terminal, store: Path) -> None:
    """Standard input is the terminal: the line would stand in what is typed."""
    terminal = at_terminal("import", "store", stdin="terminal")
    terminal.wait_for(b"\n")
    assert terminal.seen().startswith(b"gx: reading a stream from standard input\r\n")
    for line in (b"blob\n", b"data <<END\n", b"x\n", b"END\n", b"\x04"):
        time.sleep(0.15)
        terminal.screen.send(line)
    assert terminal.end() == 0
    assert b"MB" not in terminal.seen()
    assert terminal.seen().endswith(b"gx: commands: 1, objects: 1, refs: 0\r\n")


def test_try(at_terminal, run, tmp_path: Path) -> None:
    plain = run("try", "main:", stdin=STREAM)
    assert (plain.status, plain.err) == (0, b""), "in a file nothing is told"
    status, seen, printed = show(at_terminal, PIECES, "try", "main:", tmp_path=tmp_path)
    assert status == 0
    assert printed == plain.out
    assert are_of_pieces(tenths(seen))
    assert without_line(seen) == CLEAR


def test_gc(at_terminal, run, filled: Path, tmp_path: Path) -> None:
    run("gc", "store")  # one of its blobs is in no commit
    size = run("batch", "--check", "store", stdin=b"t\n").out.split()[2]
    run("drop", "store", "refs/tags/t")
    text = filled.read_bytes()
    assert run("gc", "store") == Done(0, b"", b""), "in a file nothing is told"
    left = filled.read_bytes()
    assert len(left) < len(text)
    told = b"gx: pruned objects: 1, bytes: " + size
    filled.write_bytes(text)
    assert run("gc", "--report", "store") == Done(0, b"", told + b"\n"), "but where it is asked for"
    assert filled.read_bytes() == left
    filled.write_bytes(text)
    assert show(at_terminal, [], "gc", "store", tmp_path=tmp_path) == (0, told + b"\r\n", b"")
    assert filled.read_bytes() == left


OPEN_END = b"gx: adapt: the stream ended without done\n"
TAGS = b"blob\nmark :1\ndata 1\nx\ntag a\nmark :2\nfrom :1\ndata 1\na\ntag b\nfrom :2\ndata 1\nb\n"


def test_adapt(run) -> None:
    """Adapt tells what it did and lost in a file, too, and prints the stream alone."""
    front = b"commit refs/heads/m\ncommitter <a@b> -1 +0000\ndata 0\n"
    stream = front + b'M 100644 :1 "a\nN :1 :2\nfeature import-marks=m\nget-mark :1\n'
    done = run("adapt", stdin=stream)
    assert done.status == 3
    assert done.err.splitlines() == [
        b"gx: identities that got a space: 1",
        b"gx: paths put in quotes: 1",
        b"gx: lines of marks left out: 2",
        b"gx: notes that an import refuses: 1",
        b"gx: dates before 1970 that an import refuses: 1",
        b"gx: adapt: the stream ended without done",
        b"gx: adapt: lost: feature import-marks=m",
        b"gx: adapt: no done went out, since lines are lost",
    ]
    assert (
        done.out == b"commit refs/heads/m\ncommitter  <a@b> -1 +0000\ndata 0\n\n"
        b'M 100644 :1 "\\"a"\nN :1 :2\n'
    )


@pytest.mark.parametrize(
    "stream, wanted",
    [
        pytest.param(
            TAGS,
            Done(0, TAGS, b"gx: tags of blobs and tags that an import refuses: 2\n" + OPEN_END),
            id="tags of blobs and tags",
        ),
        pytest.param(
            b"blob\ndata 1\nx\n", Done(0, b"blob\ndata 1\nx\n", OPEN_END), id="an adapted stream"
        ),
        pytest.param(
            b"blob\ndata 1\nx\ndone\n",
            Done(0, b"blob\ndata 1\nx\ndone\n", b"gx: adapt: the stream ended with done\n"),
            id="a stream that is ended",
        ),
        pytest.param(
            b"blob\ndata 9\nx", Done(1, b"blob\n", b"gx: adapt: TruncatedData\n"), id="a cut stream"
        ),
    ],
)
def test_adapt_tells(run, stream: bytes, wanted: Done) -> None:
    assert run("adapt", stdin=stream) == wanted


def test_batch(gx: Program, filled: Path, tmp_path: Path) -> None:
    """An answer comes before the next line is given."""
    words = [gx.path, "batch", "--check", "store"]
    with subprocess.Popen(
        words, cwd=tmp_path, stdin=subprocess.PIPE, stdout=subprocess.PIPE
    ) as child:
        for line, kind in (
            (b"main\n", b" commit "),
            (b"t\n", b" tag "),
            (b"nope\n", b"nope missing"),
            (b"main:\n", b" tree "),
        ):
            child.stdin.write(line)
            child.stdin.flush()
            assert kind in child.stdout.readline()
        child.stdin.close()
        assert child.stdout.read() == b""
        assert child.wait() == 0


def test_export(at_terminal, run, filled: Path) -> None:
    plain = run("export", "store")
    assert (plain.status, plain.err) == (0, b"")
    assert plain.out.endswith(b"done\n")
    terminal = at_terminal("export", "store", stdout=subprocess.PIPE)
    printed = b""
    while part := os.read(terminal.child.stdout.fileno(), 65536):  # slowly, so that the line is due
        printed += part
        time.sleep(0.06)
    assert terminal.end() == 0
    assert printed == plain.out
    assert tenths(terminal.seen())
    assert without_line(terminal.seen()) == CLEAR
    terminal = at_terminal("export", "store", stdout="terminal")
    assert terminal.end() == 0
    assert terminal.seen() == plain.out.replace(
        b"\n", b"\r\n"
    ), "a terminal that gets the stream shows no line"


def test_cause(at_terminal, run, tmp_path: Path) -> None:
    """A terminal is told a cause, and a file where it asks for it."""
    cause = b"gx: nothing: No such file or directory (os error 2)"
    terminal = at_terminal("refs", "nothing")
    assert (terminal.end(), terminal.seen()) == (1, b"gx: read failed\r\n" + cause + b"\r\n")
    assert run("refs", "nothing") == Done(1, b"", b"gx: read failed\n")
    assert run("--explain", "refs", "nothing") == Done(1, b"", b"gx: read failed\n" + cause + b"\n")


def test_waiting(gx: Program, at_terminal, store: Path, tmp_path: Path) -> None:
    """A run says after a second that it waits for another one, and ends after it."""
    words = [gx.path, "import", "store"]
    with subprocess.Popen(
        words, cwd=tmp_path, stdin=subprocess.PIPE, stdout=subprocess.PIPE
    ) as first:
        first.stdin.write(b"progress a\n")
        first.stdin.flush()
        first.stdout.readline()
        second = at_terminal("import", "store")
        assert (
            second.screen.expect_exact([b"gx: ", pexpect.TIMEOUT], timeout=0.5) == 1
        ), "nothing is told of a short wait"
        second.wait_for(b"gx: waiting for another run on store\r\n")
        assert second.seen() == b"gx: waiting for another run on store\r\n"
        first.stdin.close()
        assert first.wait() == 0
    assert second.end() == 0


def test_closed_pipe(at_terminal, filled: Path) -> None:
    terminal = at_terminal("export", "store", stdout=subprocess.PIPE)
    terminal.child.stdout.read(1)
    terminal.child.stdout.close()
    assert terminal.end() == 1
    assert without_line(terminal.seen()).replace(CLEAR, b"") == b""
