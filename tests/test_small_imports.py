"""Imports over small repositories beside those over all of a growing store: each gives the same FILE,
byte for byte, the same lines and the same status. With --long there are 5,000 random streams over 50
stores, and ten times as many streams of git.
"""

from __future__ import annotations

import random
import shutil
from collections import Counter
from pathlib import Path

import pytest

from programs import Program, Word, counted
from small_streams import (
    NAMES,
    UNKNOWN,
    ZEROS,
    Git,
    History,
    Known,
    StreamMaker,
    Ways,
    changes_of,
    made_base,
    made_large,
)
from store_files import STREAM


def options_of(randoms: random.Random) -> list[str]:
    return [word for word in ("--done", "--force") if randoms.random() < 0.1]


@pytest.fixture
def is_long(request: pytest.FixtureRequest) -> bool:
    return request.config.getoption("long")


@pytest.mark.parametrize("number", range(5))
def test_random(gx: Program, tmp_path: Path, is_long: bool, seed: int, number: int) -> None:
    """Streams that name what the store has in each way, and others."""
    counts: Counter[str] = Counter()
    for base in range(10 if is_long else 1):
        folder = tmp_path / str(base)
        folder.mkdir()
        ways, randoms = Ways(gx, folder), random.Random(f"{seed} {number} {base}")
        known = made_base(gx, ways.base, randoms)
        for _ in range(100 if is_long else 12):
            stream = StreamMaker(randoms, known).make(randoms.choice([4, 8, 16]))
            options = options_of(randoms)
            stream += b"done\n" if "--done" in options and randoms.random() < 0.8 else b""
            counts[ways.compare(stream, options)] += 1
    print(f"{dict(counts)}")
    for way, count in counts.items():
        counted[f"random streams, {way}"] += count
    assert counts["small"] > counts["whole"]


@pytest.mark.parametrize("more", [-1, 0, 1])
def test_outweighed(gx: Program, tmp_path: Path, more: int) -> None:
    """A store that has no more bytes than the stream is read as a whole, and the same comes of it."""
    ways = Ways(gx, tmp_path)
    made_large(gx, ways.base)
    size = ways.base.stat().st_size + more
    stream = STREAM + b"#" * (size - len(STREAM) - 1) + b"\n"
    assert ways.compare(stream, []) == ("small" if more < 0 else "whole")


# ---- streams of git


@pytest.mark.parametrize("number", range(3))
def test_git(
    gx: Program, git: Git, tmp_path: Path, is_long: bool, seed: int, number: int
) -> None:
    """At least nine in ten of the streams that git writes of what is new are imported over a small
    repository."""
    counts: Counter[str] = Counter()
    for each in range(10 if is_long else 1):
        folder, randoms = tmp_path / str(each), random.Random(f"{seed} {number} {each}")
        folder.mkdir()
        history, ways = History(git, folder / "git", randoms), Ways(gx, folder)
        made_large(gx, ways.base)
        for _ in range(randoms.choice([10, 25])):
            history.step()
        gx.prints("import", ways.base, stdin=changes_of(history, {}))
        for _ in range(20 if is_long else 12):
            told = history.refs()
            for _ in range(randoms.choice([1, 1, 2, 5])):
                history.step()
            if stream := changes_of(history, told):
                counts[ways.compare(stream, [])] += 1
                shutil.copy(ways.copy, ways.base)
    print(f"{dict(counts)}")
    for way, count in counts.items():
        counted[f"streams of git, {way}"] += count
    assert not counts["refused"]
    assert counts["small"] >= 9 * counts["whole"]


# ---- refs that are set and dropped


def setting(randoms: random.Random, known: Known) -> bytes:
    """A line of `set-ref --stdin`: one that may be taken, most times."""
    choose, zeros = randoms.choice, ZEROS
    ref = choose([*known.refs, *known.refs, *NAMES, b"refs/tags/v1", b"bad..name"])
    held = known.refs.get(ref, zeros)
    new = choose([*known.commits, *known.refs.values(), held, held, zeros, choose(UNKNOWN)])
    new = choose([new, new, new, choose(known.blobs or [held])])
    old = choose([held, held, held, zeros, new])
    lines = [
        b"update %s %s" % (ref, new),
        b"update %s %s %s" % (ref, new, old),
        b"update %s %s %s" % (ref, new, held),
        b"create %s %s" % (ref, new),
        b"delete %s" % ref,
        b"delete %s %s" % (ref, old),
        b"verify %s" % ref,
        b"verify %s %s" % (ref, old),
        choose([b"update %s" % ref, b"create  %s %s" % (ref, new), b"reset", b""]),
    ]
    return choose(lines[:-1] * 4 + lines[-1:])


def refs_changed(randoms: random.Random, known: Known) -> tuple[list[Word], bytes]:
    """A command that changes refs, and what it reads."""
    if randoms.random() < 0.3:
        refs = randoms.sample([*known.refs, b"refs/heads/none"], randoms.randrange(3))
        refs += refs[:1] * (randoms.random() < 0.1)
        more = b"".join(ref + b"\n" for ref in refs[1:])
        return ["drop", "--stdin", "FILE", *refs[:1]], more
    options = ["--force"] * (randoms.random() < 0.4)
    lines = [setting(randoms, known) for _ in range(randoms.choice([1, 1, 1, 2, 4]))]
    words = lines[0].split(b" ")
    if len(lines) == 1 and words[0] == b"update" and len(words) > 2 and randoms.random() < 0.5:
        return ["set-ref", *options, "FILE", *words[1:]], b""
    end = b"\n" if randoms.random() < 0.95 else b""
    return ["set-ref", *options, "--stdin", "FILE"], b"\n".join(lines) + end


@pytest.mark.parametrize("number", range(3))
def test_refs(gx: Program, tmp_path: Path, is_long: bool, seed: int, number: int) -> None:
    """Refs are changed as where FILE has another name, which has all of it read."""
    randoms, base, copy = random.Random(f"{seed} {number}"), tmp_path / "base", tmp_path / "copy"
    known = made_base(gx, base, randoms)
    counts: Counter[str] = Counter()
    for _ in range(400 if is_long else 25):
        words, stdin = refs_changed(randoms, known)
        words = [copy if word == "FILE" else word for word in words]
        answers = []
        for is_whole in (True, False):
            shutil.copy(base, copy)
            if is_whole:
                (tmp_path / "other").hardlink_to(copy)
            done = gx("--explain", *words, stdin=stdin)
            gx.prints("verify", copy)
            answers.append((done, gx.prints("refs", copy)))
            (tmp_path / "other").unlink(missing_ok=True)
        assert answers[0] == answers[1], words
        counts["refused" if answers[0][0].status else "done"] += 1
    counted["changes of refs"] += sum(counts.values())
    assert counts["done"] and counts["refused"]
