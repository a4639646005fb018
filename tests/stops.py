"""What a machine that stops leaves of a file: the calls of a run that write it, and outcomes of a
stop at each of them.

A sync makes durable what was written before. Of what was written since, each write may have come or
not, whole, up to some byte, or block by block; a block of it may have any bytes.
"""

from __future__ import annotations

import os
import random
import signal
from collections.abc import Iterator
from pathlib import Path
from typing import NamedTuple

from failing import NUMBERS, Call, program_of, run_watched
from programs import Done, Word

PICK = 10  # where the byte stands that picks a slot
BLOCKS = (512, 4096)
WRITING = ("pwrite64", "write", "writev", "ftruncate", "fsync", "fdatasync")
OURS = program_of(os.getpid())  # what a process is before it runs another program


class Write(NamedTuple):
    at: int
    text: bytes


class Cut(NamedTuple):
    length: int


class Sync(NamedTuple):
    pass


Step = Write | Cut | Sync


class Recorder:
    """Notes what a run does to a file."""

    def __init__(self, path: Path):
        self.path, self.steps = os.path.realpath(path), []

    def judge(self, call: Call) -> int:
        if call.place() == self.path:
            self.steps.append(step_of(call))
        return 0


def step_of(call: Call) -> Step:
    file, *words = call.words
    if call.name in ("fsync", "fdatasync"):
        return Sync()
    if call.name == "ftruncate":
        return Cut(words[0])
    assert call.name in ("pwrite64", "write"), call.name
    at = words[2] if call.name == "pwrite64" else position_of(call.process, file & 0xFFFFFFFF)
    with open(f"/proc/{call.process}/mem", "rb", buffering=0) as memory:
        memory.seek(words[0])
        text = memory.read(words[1])
    assert len(text) == words[1]
    return Write(at, text)


def position_of(process: int, file: int) -> int:
    """Where a file is written next."""
    told = Path(f"/proc/{process}/fdinfo/{file}").read_text()
    return int(told.split()[1])


def recorded(words: list[Word], path: Path, stdin: bytes, **more) -> tuple[Done, list[Step]]:
    """Runs a program, and answers what it did to a file, in order."""
    recorder = Recorder(path)
    done = run_watched(words, WRITING, recorder.judge, stdin, 60, **more)
    return done, recorder.steps


class Ender:
    """Has the Nth call that a program makes kill it, or fail."""

    def __init__(self, number: int, fault: int = 0):
        self.number, self.fault, self.name = number, fault, ""

    def judge(self, call: Call) -> int:
        if self.name or call.program() == OURS:
            return 0
        self.number -= 1
        if self.number:
            return 0
        self.name = f"{call.name} {call.place()}"
        if not self.fault:
            os.kill(call.process, signal.SIGKILL)
        return self.fault


def ended_at(words: list[Word], ender: Ender, stdin: bytes, **more) -> Done:
    return run_watched(words, NUMBERS, ender.judge, stdin, 60, **more)


# ---- outcomes


def done(text: bytes, step: Step) -> bytes:
    """What a file holds behind a step, as readers see it."""
    if isinstance(step, Write):
        return written(text, step.at, step.text)
    return text[: step.length].ljust(step.length, b"\0") if isinstance(step, Cut) else text


def written(text: bytes, at: int, piece: bytes) -> bytes:
    text = text.ljust(at, b"\0")
    return text[:at] + piece + text[at + len(piece) :]


def seen(text: bytes, steps: list[Step]) -> bytes:
    for step in steps:
        text = done(text, step)
    return text


class Outcome(NamedTuple):
    """A text that a stop may leave, whether it may be the old one, or the new one, and whether a
    sync of the run had ended."""

    text: bytes
    may_be_old: bool
    may_be_new: bool
    is_synced: bool = True


def picking(steps: list[Step]) -> int:
    """Which step picks what was written."""
    picks = [
        number
        for number, step in enumerate(steps)
        if isinstance(step, Write) and step.at <= PICK < step.at + len(step.text)
    ]
    assert len(picks) == 1, "one write picks"
    return picks[0]


def killed(before: bytes, steps: list[Step]) -> Iterator[Outcome]:
    """What a run leaves that is killed: behind each step, and in the midst of each write."""
    pick, text = picking(steps), before
    for number, step in enumerate(steps):
        for length in lengths_of(step):
            part = Write(step.at, step.text[:length])
            yield Outcome(done(text, part), True, False)
        text = done(text, step)
        yield Outcome(text, number < pick, number >= pick)


def lengths_of(step: Step) -> list[int]:
    """Where a write may be cut off: anywhere if it is short, else about each block."""
    if not isinstance(step, Write):
        return []
    if len(step.text) <= 128:
        return list(range(len(step.text)))
    ends = {place - step.at for place in range(0, step.at + len(step.text), min(BLOCKS))}
    near = {end + more for end in {0, len(step.text), *ends} for more in (-1, 0, 1)}
    return sorted(length for length in near if 0 <= length < len(step.text))


def picked(before: bytes, steps: list[Step]) -> Iterator[Outcome]:
    """What stands there when the byte that picks is torn, whatever it is then."""
    text = seen(before, steps[: picking(steps)])
    for byte in range(256):
        yield Outcome(written(text, PICK, bytes([byte])), True, True)


def torn(
    before: bytes, steps: list[Step], randoms: random.Random, waiting: list[Step] | None = None
) -> Outcome:
    """What a machine leaves that stops in the midst of a step, or behind it. `waiting` are steps of
    before, which no sync has made durable."""
    number = randoms.randrange(len(steps))
    synced = [at for at in range(number) if isinstance(steps[at], Sync)]
    first = synced[-1] + 1 if synced else 0
    base = seen(seen(before, waiting or []) if synced else before, steps[:first])
    since = [*([] if synced else waiting or []), *steps[first : number + 1]]
    is_over = isinstance(steps[number], Sync) and randoms.random() < 0.3
    pick = picking(steps)
    may_be_old = not (is_over and number > pick) and first <= pick
    may_be_new = number >= pick
    text = seen(base, since) if is_over else torn_by(base, since, randoms)
    return Outcome(text, may_be_old, may_be_new, bool(synced) or is_over)


def torn_by(text: bytes, steps: list[Step], randoms: random.Random) -> bytes:
    """What is left of steps that no sync has made durable."""
    for step in steps:
        way = randoms.random()
        if way < 0.2:
            text = done(text, step)
        elif way < 0.8 and isinstance(step, Write):
            text = torn_write(text, step, randoms)
    return text


def torn_write(text: bytes, write: Write, randoms: random.Random) -> bytes:
    """A write of which blocks came, didn't, or came with any bytes."""
    size, end = randoms.choice(BLOCKS), write.at + len(write.text)
    first = write.at - write.at % size
    usual = randoms.choice(("old", "new", "any"))
    for low in range(first, end, size):
        start, stop = max(low, write.at), min(low + size, end)
        way = usual if randoms.random() < 0.7 else randoms.choice(("old", "new", "any"))
        if way == "new":
            text = written(text, start, write.text[start - write.at : stop - write.at])
        elif way == "any":
            text = written(text, start, garbage(write, start, stop, randoms))
    # the length may have come without the bytes
    return text.ljust(end, b"\0") if randoms.random() < 0.5 else text


def garbage(write: Write, start: int, stop: int, randoms: random.Random) -> bytes:
    """Any bytes, also those of the write in another place."""
    if randoms.random() < 0.5:
        return randoms.randbytes(stop - start)
    at = randoms.randrange(len(write.text))
    return (write.text[at:] + write.text)[: stop - start].ljust(stop - start, b"\0")
