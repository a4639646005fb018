"""Imports with --push: a ref changes only from what the line of its pusher has."""

from __future__ import annotations

import os
import subprocess
from collections.abc import Callable
from pathlib import Path

import pytest

from programs import Done, Program

ZEROS = "0" * 40
WHO = "committer A <a@example.com> {} +0000\ndata 1\nx\n"


def commit(ref: str, time: int, parent: str = "") -> str:
    """A commit of a stream: `parent` is what stands behind `from`."""
    start = f"from {parent}\n" if parent else ""
    return f"commit {ref}\n" + WHO.format(time) + start + "\n"


class Pushed:
    """A store with two branches, and what pushes into it come to."""

    def __init__(self, gx: Program, folder: Path, store: Path):
        self.gx, self.store, self.file = gx, store, folder / "lines"

    def refs(self) -> dict[str, str]:
        lines = self.gx.prints("refs", self.store).decode().splitlines()
        return {name: digits for digits, name in (line.split(" ", 1) for line in lines)}

    def push(self, lines: str, stream: str = "", *options: str) -> Done:
        self.file.write_text(lines)
        words = ["import", f"--push={self.file}", *options, self.store]
        return self.gx(*words, stdin=stream.encode())

    def refused(self, lines: str, stream: str, told: str, *options: str) -> None:
        """The push is refused by this line, and FILE is the very text that it was."""
        before = self.store.read_bytes()
        done = self.push(lines, stream, *options)
        assert (done.status, done.err.decode(), done.out) == (1, f"gx: {told}\n", b"")
        assert self.store.read_bytes() == before

    def taken(self, lines: str, stream: str = "", *options: str) -> str:
        """The push is taken; what standard error says."""
        done = self.push(lines, stream, *options)
        assert done.status == 0, done.err
        return done.err.decode()


@pytest.fixture
def pushed(gx: Program, tmp_path: Path, new_store: Callable[..., Path]) -> Pushed:
    stream = commit("refs/heads/a", 1) + commit("refs/heads/b", 2)
    return Pushed(gx, tmp_path, new_store(stream.encode()))


ON_A = commit("refs/heads/a", 3, "refs/heads/a^0")
ANEW_A = commit("refs/heads/a", 4)


def test_forward(pushed: Pushed) -> None:
    was = pushed.refs()
    told = pushed.taken(f"{was['refs/heads/a']} refs/heads/a\n", ON_A, "--report")
    now = pushed.refs()
    assert now["refs/heads/a"] != was["refs/heads/a"] and now["refs/heads/b"] == was["refs/heads/b"]
    assert told.splitlines()[0] == f"{was['refs/heads/a']} {now['refs/heads/a']} refs/heads/a"


@pytest.mark.parametrize("old", [ZEROS, "1" * 40])
def test_another_old_object(pushed: Pushed, old: str) -> None:
    pushed.refused(f"{old} refs/heads/a\n", ON_A, "push 1: RefMoved")


def test_new_object_as_old(pushed: Pushed) -> None:
    """A push that was made once isn't taken again, though the ref is where it would go."""
    line = f"{pushed.refs()['refs/heads/a']} refs/heads/a\n"
    pushed.taken(line, ON_A)
    pushed.refused(line, ON_A, "push 1: RefMoved")
    pushed.refused(line, "", "push 1: RefMoved")


def test_force_is_of_one_ref(pushed: Pushed) -> None:
    was = pushed.refs()
    a, b = was["refs/heads/a"], was["refs/heads/b"]
    both = ANEW_A + commit("refs/heads/b", 5)
    pushed.refused(f"{a} refs/heads/a\n", ANEW_A, "push 1: NotFastForward")
    pushed.refused(f"+{a} refs/heads/a\n{b} refs/heads/b\n", both, "push 2: NotFastForward")
    pushed.taken(f"+{a} refs/heads/a\n+{b} refs/heads/b\n", both)
    assert all(pushed.refs()[name] != was[name] for name in was)


def test_checkpoint_publishes_nothing(pushed: Pushed) -> None:
    a = pushed.refs()["refs/heads/a"]
    line = f"{a} refs/heads/a\n"
    pushed.refused(line, ON_A + "checkpoint\n\nnonsense\n", "command 3: UnknownCommand")
    anew = ON_A + "checkpoint\n\nreset refs/heads/a\n\n" + ANEW_A
    pushed.refused(line, anew, "push 1: NotFastForward")


def test_ref_without_a_line(pushed: Pushed) -> None:
    a = pushed.refs()["refs/heads/a"]
    stream = ON_A + commit("refs/heads/c", 6)
    pushed.refused(f"{a} refs/heads/a\n", stream, "push 2: RefMoved")
    pushed.refused("", ON_A, "push 1: RefMoved")
    pushed.taken(f"{ZEROS} refs/heads/c\n{a} refs/heads/a\n", stream)
    assert set(pushed.refs()) == {"refs/heads/a", "refs/heads/b", "refs/heads/c"}


def test_removal(pushed: Pushed) -> None:
    was = pushed.refs()
    a, b = was["refs/heads/a"], was["refs/heads/b"]
    pushed.refused(f"-{b} refs/heads/a\n", "", "push 1: RefMoved")
    lines = f"-{a} refs/heads/a\n-{ZEROS} refs/heads/none\n"
    told = pushed.taken(lines, "", "--report")
    assert pushed.refs() == {"refs/heads/b": b}
    assert told.splitlines()[0] == f"{a} {ZEROS} refs/heads/a"
    # a stream may use a ref that goes
    stream = commit("refs/heads/b", 7, "refs/heads/b^0") + commit("refs/heads/d", 8, "refs/heads/b")
    pushed.taken(f"-{b} refs/heads/b\n{ZEROS} refs/heads/d\n", stream)
    assert list(pushed.refs()) == ["refs/heads/d"]


@pytest.mark.parametrize(
    "line",
    ["", "x", f"{'1' * 39} refs/heads/a", f"{ZEROS}refs/heads/a", f"*{ZEROS} refs/heads/c"],
)
def test_bad_line(pushed: Pushed, line: str) -> None:
    first = f"{pushed.refs()['refs/heads/b']} refs/heads/b\n"
    pushed.refused(f"{first}{line}\n", ON_A, "push 2: BadLine")


def test_ref_that_stands_twice(pushed: Pushed) -> None:
    a = pushed.refs()["refs/heads/a"]
    pushed.refused(f"{a} refs/heads/a\n+{a} refs/heads/a\n", ON_A, "push 2: BadLine")


def test_tags(pushed: Pushed) -> None:
    """A tag is replaced by one whose commit reaches the old one's."""

    def tag(ref: str) -> str:
        return f"tag t\nfrom {ref}\ntagger A <a@example.com> 1 +0000\ndata 1\nx\n"

    pushed.taken(f"{ZEROS} refs/tags/t\n", tag("refs/heads/a"))
    held = pushed.refs()["refs/tags/t"]
    pushed.refused(f"{held} refs/tags/t\n", tag("refs/heads/b"), "push 1: NotFastForward")
    pushed.taken(f"+{held} refs/tags/t\n", tag("refs/heads/b"))
    assert pushed.refs()["refs/tags/t"] != held


def test_file_of_lines(pushed: Pushed, tmp_path: Path) -> None:
    words = [f"--push={tmp_path / 'none'}", pushed.store]
    done = pushed.gx("import", *words)
    assert (done.status, done.err) == (1, b"gx: read failed\n")
    # the stream stays unread, and FILE isn't claimed
    assert not Path(f"{pushed.store}.new").exists()
    done = pushed.gx("import", "--force", *words)
    assert done.status == 2 and b"cannot be used with '--force'" in done.err


def test_explained(pushed: Pushed) -> None:
    """A refused line tells its ref, what it has to hold, and what it holds."""
    a, b = pushed.refs()["refs/heads/a"], pushed.refs()["refs/heads/b"]
    first = f"{b} refs/heads/b\n"
    second = f"{first}{ZEROS} refs/heads/a\n"
    cases = [
        (second, "2: RefMoved", f"refs/heads/a: expected {ZEROS}, found {a}"),
        (f"+{b} refs/heads/a\n", "1: RefMoved", f"refs/heads/a: expected {b}, found {a}"),
        (f"-{a} refs/x\t\n", "1: RefMoved", f'"refs/x\\t": expected {a}, found {ZEROS}'),
        (f"{first}{first}", "2: BadLine", f"refs/heads/b: expected {b}, found {b}"),
    ]
    for lines, told, explained in cases:
        pushed.refused(lines, ON_A, f"push {told}\ngx: {explained}", "--explain")
        pushed.refused(lines, ON_A, f"push {told}")
    pushed.refused(first + "x\n", ON_A, "push 2: BadLine", "--explain")
    # no line has the ref
    pushed.refused("", ON_A, "push 1: RefMoved", "--explain")


def test_pushes_at_once(pushed: Pushed, tmp_path: Path) -> None:
    """Of pushers that saw the same, one is taken, and the others are told."""
    a = pushed.refs()["refs/heads/a"]
    pushed.file.write_text(f"{a} refs/heads/a\n")
    words = [pushed.gx.path, "import", f"--push={pushed.file}", pushed.store]
    runs = []
    for number in range(6):
        stream = tmp_path / f"stream{number}"
        stream.write_text(commit("refs/heads/a", 10 + number, "refs/heads/a^0"))
        with stream.open("rb") as opened:
            how = {"stdin": opened, "stderr": subprocess.PIPE, "env": pushed.gx.environment}
            runs.append(subprocess.Popen(words, **how))
    told = sorted(run.communicate(timeout=60)[1] for run in runs)
    assert told == [b""] + [b"gx: push 1: RefMoved\n"] * 5
    log = pushed.gx.prints("log", pushed.store, "refs/heads/a").decode().split()
    assert len(log) == 2 and log[1] == a


def test_lines_come_behind_the_lock(pushed: Pushed) -> None:
    """Once the pipe of the lines is open nothing else changes the refs."""
    os.mkfifo(pushed.file)
    words = [pushed.gx.path, "import", f"--push={pushed.file}", pushed.store]
    with subprocess.Popen(words, stdin=subprocess.PIPE) as child:
        with pushed.file.open("w") as lines:
            done = pushed.gx("import", "--wait=0", pushed.store, stdin=ON_A.encode())
            assert (done.status, done.err) == (1, b"gx: lock failed\n")
            lines.write(f"{pushed.refs()['refs/heads/a']} refs/heads/a\n")
        child.communicate(ON_A.encode())
    assert child.returncode == 0
    pushed.gx.prints("import", "--wait=0", pushed.store, stdin=b"")
