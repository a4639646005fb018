"""Pushes over small repositories beside those over all of a growing store: each gives the same FILE, byte
for byte, the same lines and the same status. With --long there are 2,000 random pushes over 20 stores.
"""

from __future__ import annotations

import random
import shutil
from collections import Counter
from pathlib import Path

import pytest

from programs import Program, counted
from small_streams import (
    NOT_SMALL,
    ZEROS,
    Git,
    History,
    StreamMaker,
    Ways,
    block,
    changes_of,
    made_base,
    made_large,
    push_lines,
)

WHO = b"committer A <a@x> 1 +0000\n"


@pytest.fixture
def is_long(request: pytest.FixtureRequest) -> bool:
    return request.config.getoption("long")


class Pushes(Ways):
    """A store, and a push into copies of it in each way."""

    def push(self, lines: list[bytes], stream: bytes, options: list[str]) -> str:
        told = self.base.parent / "lines"
        told.write_bytes(b"".join(line + b"\n" for line in lines))
        return self.compare(stream, [f"--push={told}", *options])

    def refs(self) -> dict[bytes, bytes]:
        lines = self.gx.prints("refs", self.base).splitlines()
        return {name: digits for digits, name in (line.split(b" ", 1) for line in lines)}


@pytest.mark.parametrize("number", range(4))
def test_random(gx: Program, tmp_path: Path, is_long: bool, seed: int, number: int) -> None:
    """Streams and lines that hold, and others."""
    counts: Counter[str] = Counter()
    for base in range(5 if is_long else 1):
        folder = tmp_path / str(base)
        folder.mkdir()
        pushes, randoms = Pushes(gx, folder), random.Random(f"{seed} {number} {base}")
        known = made_base(gx, pushes.base, randoms)
        for _ in range(100 if is_long else 15):
            stream = StreamMaker(randoms, known).make(randoms.choice([2, 4, 8, 16]))
            options = ["--done"] * (randoms.random() < 0.1)
            stream += b"done\n" if options and randoms.random() < 0.8 else b""
            counts[pushes.push(push_lines(randoms, known, stream), stream, options)] += 1
    print(f"{dict(counts)}")
    for way, count in counts.items():
        counted[f"random pushes, {way}"] += count
    assert counts["small"] > counts["whole"]


@pytest.mark.parametrize("number", range(2))
def test_git(
    gx: Program, git: Git, tmp_path: Path, is_long: bool, seed: int, number: int
) -> None:
    """A mirror's pushes, of which each line may lose commits: refs are set and removed."""
    counts: Counter[str] = Counter()
    for each in range(6 if is_long else 1):
        folder, randoms = tmp_path / str(each), random.Random(f"{seed} {number} {each}")
        folder.mkdir()
        history, pushes = History(git, folder / "git", randoms), Pushes(gx, folder)
        made_large(gx, pushes.base)
        for _ in range(12):
            history.step()
        gx.prints("import", pushes.base, stdin=changes_of(history, {}))
        for _ in range(20 if is_long else 10):
            told = pushes.refs()
            for _ in range(randoms.choice([1, 1, 2, 5])):
                history.step()
            if len(told) > 3 and randoms.random() < 0.3:
                history.git("update-ref", "-d", randoms.choice(sorted(told)[1:]))
            now, stream = history.refs(), changes_of(history, told)
            changed = [ref for ref in {**told, **now} if told.get(ref) != now.get(ref)]
            signs = {ref: b"+" if ref in now else b"-" for ref in changed}
            lines = [signs[ref] + told.get(ref, ZEROS) + b" " + ref for ref in changed]
            counts[pushes.push(lines, stream, [])] += 1
            shutil.copy(pushes.copy, pushes.base)
            held = pushes.refs()
            # git writes no tag of a commit that is held already
            assert all(held.get(ref) == now[ref] for ref in now if b"/tags/" not in ref)
            assert held.items() <= now.items()
    print(f"{dict(counts)}")
    for way, count in counts.items():
        counted[f"pushes of git, {way}"] += count
    assert not counts["refused"]
    assert counts["small"] >= 9 * counts["whole"]


# ---- what lines tell


def commit(ref: bytes, start: bytes = b"", message: bytes = b"m") -> bytes:
    first = b"from %s\n" % start if start else b""
    return b"commit %s\n%s%s%s\n" % (ref, WHO, block(message), first)


@pytest.fixture
def pushes(gx: Program, tmp_path: Path) -> Pushes:
    """A store with three branches, of which two hold one commit."""
    pushes = Pushes(gx, tmp_path)
    made_large(gx, pushes.base)
    stream = commit(b"refs/heads/a") + b"reset refs/heads/b\nfrom refs/heads/a\n\n"
    gx.prints("import", pushes.base, stdin=stream + commit(b"refs/heads/c", b"refs/heads/a"))
    return pushes


ON_A = commit(b"refs/heads/a", b"refs/heads/a^0")
ANEW = commit(b"refs/heads/a", message=b"anew")
NEW = commit(b"refs/heads/n", b"refs/heads/a")
TAG = b"tag t\nfrom refs/heads/a\ntagger A <a@x> 1 +0000\n" + block(b"x")
SMALL = [
    (["+a", "+new d"], b""),
    (["+a"], ON_A),
    (["+a", "+b", "-c"], ON_A),
    (["new n"], NEW),
    (["+new n", "-new none"], NEW),
    (["-a"], ON_A),
    (["-a", "-b", "-c"], b""),
    (["-a", "new n"], NEW),
    (["-new n"], NEW),
    (["-a", "+b"], b"progress one\n" + ON_A + b"progress two\n"),
    (["+a"], ON_A + b"checkpoint\n\n" + commit(b"refs/heads/a")),
    ([], b"blob\n" + block(b"y")),
    ([], b"reset refs/heads/b\nfrom refs/heads/a\n\n"),
    (["+new refs/tags/t"], TAG),
]
WHOLE = [(["a"], ON_A), (["a"], b""), (["+b", "a"], ON_A)]
REFUSED = [
    (["+b"], ON_A, "push 2: RefMoved"),
    ([], ON_A, "push 1: RefMoved"),
    (["-b", "+a"], ON_A + NEW, "push 3: RefMoved"),
    (["+new a"], ON_A, "push 1: RefMoved"),
    (["+b", "-new a"], b"", "push 2: RefMoved"),
    (["-b", "+b"], b"", "push 2: BadLine"),
    (["+a", "+c", "x"], ON_A, "push 3: BadLine"),
    (["a"], ANEW, "push 1: NotFastForward"),
    (["+b", "new n", "a"], ANEW + NEW, "push 3: NotFastForward"),
    (["+a"], ON_A + b"checkpoint\n\nnonsense\n", "command 3: UnknownCommand"),
    (["+a"], ON_A + b"progress x\nnonsense\n", "command 3: UnknownCommand"),
]


def lines_of(pushes: Pushes, told: list[str]) -> list[bytes]:
    """Lines for `[SIGN][new ]NAME`: what each ref holds, or zeros where it is new."""
    lines, held = [], pushes.refs()
    for word in told:
        sign, word = (word[0], word[1:]) if word[0] in "+-" else ("", word)
        is_new, name = word.startswith("new "), word.removeprefix("new ")
        ref = (name if name.startswith("refs/") else f"refs/heads/{name}").encode()
        old = ZEROS if is_new else held.get(ref, b"x")
        lines.append(b"%s%s %s" % (sign.encode(), old, ref))
    return lines


@pytest.mark.parametrize("told, stream", SMALL)
def test_small(pushes: Pushes, told: list[str], stream: bytes) -> None:
    assert pushes.push(lines_of(pushes, told), stream, []) == "small"


@pytest.mark.parametrize("told, stream", WHOLE)
def test_whole(pushes: Pushes, told: list[str], stream: bytes) -> None:
    """Whether a ref moves forward is told by its commits."""
    assert pushes.push(lines_of(pushes, told), stream, []) == "whole"


@pytest.mark.parametrize("told, stream, fault", REFUSED)
def test_refused(pushes: Pushes, told: list[str], stream: bytes, fault: str) -> None:
    before = pushes.base.read_bytes()
    assert pushes.push(lines_of(pushes, told), stream, []) == "refused"
    done = pushes.imported([], [f"--push={pushes.base.parent / 'lines'}"], True)
    assert done[0].err.decode().splitlines()[0] == f"gx: {fault}"
    assert done[1] == before


def test_lines_are_looked_at_before_the_stream(pushes: Pushes, tmp_path: Path) -> None:
    """A push whose line doesn't hold reads nothing of its stream."""
    told = tmp_path / "told"
    told.write_bytes(b"+%s refs/heads/a\n" % ZEROS)
    with (tmp_path / "stream").open("wb+") as file:
        file.write(ON_A)
        file.seek(0)
        done = pushes.gx("import", f"--push={told}", pushes.base, stdin=file)
        assert (done.status, done.err) == (1, b"gx: push 1: RefMoved\n")
        assert file.tell() == 0
        assert pushes.gx("--way=small", "import", f"--push={told}", pushes.base) == NOT_SMALL
