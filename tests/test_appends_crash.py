"""Growing stores to which a change is appended, and machines that stop meanwhile: whatever is left
is the repository as before or as after, by the whole reading and by questions, and the next import
goes on. With --long 20,000 outcomes are tried.
"""

from __future__ import annotations

import hashlib
import random
from pathlib import Path
from typing import NamedTuple

import pytest

from failing import needs_faults
from growing_texts import HEAD
from programs import Program, Word, counted
from stops import (
    PICK,
    Cut,
    Outcome,
    Step,
    Sync,
    Write,
    killed,
    picked,
    picking,
    recorded,
    seen,
    torn,
)
from store_files import blob_stream, branch_stream
from test_growing import SLOTS

MAIN = "refs/heads/main"
LARGE = hashlib.sha256(b"large").digest() * 700
TOLD = 20000  # outcomes with --long


def commit(ref: str, number: int, start: str = "") -> bytes:
    head = f"commit {ref}\ncommitter A <a@x> {number} +0000\ndata 2\nm\n"
    above = f"from {start}\n" if start else ""
    return f"{head}{above}M 100644 inline f{number}\ndata 3\n{number:03}\n\n".encode()


def reset(ref: str, start: str) -> bytes:
    return f"reset {ref}\nfrom {start}\n\n".encode()


ON_MAIN = f"{MAIN}^0"
NEXT = branch_stream(99) + blob_stream([b"next"])
MANY = blob_stream([b"%d" % number for number in range(150)])
MORE = blob_stream([b"%d" % number for number in range(200, 320)])
ON_B = commit("refs/heads/b", 4, "refs/heads/b^0")
REFS = b"".join(reset(f"refs/heads/topic{number}", ON_MAIN) for number in range(120))
TAG = b"tag v%d\nfrom refs/heads/main^0\ntagger A <a@x> 1 +0000\ndata 2\nx\n"
TAGS = b"".join(TAG % number for number in (1, 2))


class Change(NamedTuple):
    """A command that changes a store, what it reads, and what stands behind the store's end then.
    DIGITS are those of main."""

    command: str
    words: tuple[str, ...] = ()
    stdin: bytes = b""
    behind: int = 0

    def asked(self, gx: Program, store: Path) -> tuple[list[Word], bytes]:
        """The command line, and what it reads."""
        digits = gx.prints("rev-parse", store, MAIN).strip() if self.command == "set-ref" else b""
        words = [word.replace("DIGITS", digits.decode()) for word in self.words]
        options = [word for word in words if word.startswith("--")]
        others = [word for word in words if not word.startswith("--")]
        line = [gx.path, self.command, *options, store, *others]
        return line, self.stdin.replace(b"DIGITS", digits)


# so much that all others bring less: else a whole text takes the store's place
FIRST = Change("import", stdin=blob_stream([LARGE + LARGE]) + commit(MAIN, 1))
# one behind the other; the numbers of new rows decide which runs are taken in
CHANGES = {
    "merged": Change("import", stdin=commit(MAIN, 2, ON_MAIN)),
    "refs-alone": Change("import", stdin=reset("refs/heads/a", ON_MAIN)),
    "drop": Change("drop", ("refs/heads/a",)),
    "set-ref": Change("set-ref", ("refs/heads/b", "DIGITS")),
    "checkpoints": Change("import", stdin=commit(MAIN, 3, ON_MAIN) + b"checkpoint\n" + ON_B),
    "many": Change("import", stdin=MANY),
    "few": Change("import", stdin=commit(MAIN, 5, ON_MAIN)),
    "behind": Change("import", stdin=commit(MAIN, 6, ON_MAIN), behind=5000),
    "large": Change("import", stdin=blob_stream([LARGE]) + commit(MAIN, 7, ON_MAIN)),
    "refs": Change("import", stdin=REFS),
    "tags": Change("import", stdin=TAGS),
    "taken": Change("import", stdin=MORE),
    "drops": Change("drop", tuple(f"refs/heads/topic{number}" for number in range(1, 110))),
    "set-refs": Change("set-ref", ("--stdin",), b"delete refs/heads/b\ncreate refs/x DIGITS\n"),
    "refused": Change("import", stdin=commit(MAIN, 8, ON_MAIN) + b"checkpoint\nfoo\n"),
}

BEHIND = Change("import", stdin=branch_stream(77))


def told(gx: Program, store: Path) -> tuple[bytes, ...]:
    """What a store holds: by the whole reading, in which each object has its name, and by a look."""
    return gx.prints("verify", store).rpartition(b"bytes ")[0], gx.prints("refs", store)


# of a store, and of it behind the next import
Told = tuple[tuple[bytes, ...], tuple[bytes, ...]]


class Appended:
    """A change of a store: what stood there, the steps that it took, and what is told of both."""

    def __init__(self, gx: Program, folder: Path, change: Change, before: bytes):
        self.gx, self.store = gx, folder / "store"
        self.store.write_bytes(before)
        inode = self.store.stat().st_ino
        self.words, self.stdin = change.asked(gx, self.store)
        self.done, self.steps = recorded(self.words, self.store, self.stdin, env=gx.environment)
        self.before, self.after = before, self.store.read_bytes()
        assert self.store.stat().st_ino == inode, "it is appended"
        assert seen(before, self.steps) == self.after, "all that is written is noted"
        self.known: dict[bytes, Told] = {}
        self.ends = [self.told_with(text) for text in (before, self.after)]
        assert self.ends[0] != self.ends[1], "something is new"

    def told_with(self, text: bytes) -> Told:
        """What is told of a text, and what behind the next import."""
        if text not in self.known:
            self.store.write_bytes(text)
            first = told(self.gx, self.store)
            self.gx.prints("import", self.store, stdin=NEXT)
            self.known[text] = first, told(self.gx, self.store)
        return self.known[text]

    def look(self, outcome: Outcome, *others: Told) -> None:
        """Holds an outcome to the two repositories, or to others."""
        counted["outcomes of a stop"] += 1
        may_be = [*others]
        may_be += [self.ends[0]] if outcome.may_be_old else []
        may_be += [self.ends[1]] if outcome.may_be_new else []
        try:
            found = self.told_with(outcome.text)
            assert found in may_be, "neither before nor after"
        except AssertionError:
            self.store.with_name("left").write_bytes(outcome.text)
            raise


def appended(gx: Program, folder: Path, name: str) -> Appended:
    """A change, behind those that come before it."""
    store = folder / "store"
    gx.prints("init", "--growing", store)
    names = list(CHANGES)
    for change in [FIRST, *(CHANGES[other] for other in names[: names.index(name)])]:
        words, stdin = change.asked(gx, store)
        gx(*words[1:], stdin=stdin)
    left = b"left\n" * (CHANGES[name].behind // 5)
    return Appended(gx, folder, CHANGES[name], store.read_bytes() + left)


@pytest.fixture
def outcomes(request: pytest.FixtureRequest) -> int:
    """How many outcomes are tried of a change."""
    return TOLD // len(CHANGES) if request.config.getoption("long") else 20


def kept_by(text: bytes) -> list[tuple[int, int]]:
    """Where a growing text stands that is picked, but for the byte that picks."""
    slot = SLOTS[b"a" if text[PICK : PICK + 1] == b"a" else b"b"]
    return [(0, PICK), (slot, slot + 106), (HEAD, int(text[slot : slot + 20]))]


def is_outside(step: Step, low: int, high: int) -> bool:
    """Whether a step leaves these bytes alone."""
    if isinstance(step, Write):
        return step.at >= high or step.at + len(step.text) <= low
    return isinstance(step, Sync) or step.length >= high


@needs_faults
@pytest.mark.parametrize("name", CHANGES)
def test_order(gx: Program, tmp_path: Path, name: str) -> None:
    """What is picked isn't written. A sync comes before all writes, one before that of a byte, which
    picks, and one behind it."""
    change = appended(gx, tmp_path, name)
    steps = [step for step in change.steps if not isinstance(step, Cut)]
    pick = picking(steps)
    assert [steps[0], *steps[pick - 1 : pick], *steps[pick + 1 :]] == [Sync()] * 3, steps
    assert len(steps[pick].text) == 1
    for step in change.steps[: picking(change.steps)]:
        assert all(is_outside(step, *kept) for kept in kept_by(change.before)), step


@needs_faults
@pytest.mark.parametrize("name", CHANGES)
def test_stops(
    gx: Program, tmp_path: Path, name: str, outcomes: int, randoms: random.Random
) -> None:
    """Prefixes of the steps, any byte that picks, and steps of which blocks came or didn't."""
    change = appended(gx, tmp_path, name)
    found = [*killed(change.before, change.steps), *picked(change.before, change.steps)]
    few = min(len(found), outcomes // 2)
    for outcome in randoms.sample(found, few):
        change.look(outcome)
    for _ in range(outcomes - few):
        change.look(torn(change.before, change.steps, randoms))


@needs_faults
@pytest.mark.parametrize("name", ["merged", "drop", "many", "few"])
def test_stops_behind_a_kill(
    gx: Program, tmp_path: Path, name: str, outcomes: int, randoms: random.Random
) -> None:
    """A machine stops while a run appends behind one that was killed, of which no sync has made the
    last steps durable."""
    first = appended(gx, tmp_path, name)
    for number in range(len(first.steps)):
        synced = [at for at in range(number) if isinstance(first.steps[at], Sync)]
        durable = first.steps[: synced[-1] + 1] if synced else []
        waiting = first.steps[len(durable) : number + 1]
        base = seen(first.before, durable)
        second = Appended(gx, tmp_path, BEHIND, seen(base, waiting))
        for _ in range(outcomes // 10):
            outcome = torn(base, second.steps, randoms, waiting)
            second.look(outcome, *([] if outcome.is_synced else first.ends))
