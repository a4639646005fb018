"""System calls that fail under a push, a mirror and the Python module, one of one program each
time: the store is as before or as after, and the status tells.

With --long there are 2,000 of each, and `--ledger FILE` notes them there, so that another run goes
on behind them. `--fault "PROGRAM: CALL NUMBER ERROR"`, as the ledger has it, tries that one alone.
"""

from __future__ import annotations

import errno
import os
import random
import shutil
import sys
import threading
from collections import Counter
from collections.abc import Callable, Iterator
from concurrent.futures import ThreadPoolExecutor
from dataclasses import dataclass, field
from pathlib import Path
from subprocess import TimeoutExpired
from typing import NamedTuple

import pytest

from failing import NUMBERS, Call, needs_faults, program_of, run_watched
from libraries import built, shared  # noqa: F401
from programs import SCRIPTS, TOP, Done, Program, Word, printed, run_program

ERRORS = ("EIO", "ENOSPC", "EACCES", "EINTR", "ENOMEM")
OURS = program_of(os.getpid())  # what a process is before it runs another program
TIME = 120  # seconds that a run may take, on a busy machine
CHANGE = """
import sys
from ginlarch import Repository
with Repository.change(sys.argv[1]) as repository:
    repository.import_stream(sys.stdin.buffer.read(), force=True)
"""
SAVE = """
import sys
from ginlarch import Repository
repository = Repository.open(sys.argv[1])
repository.import_stream(sys.stdin.buffer.read(), force=True)
repository.save()
"""
FIRST = (
    b"commit refs/heads/main\nmark :1\ncommitter A <a@x> 1 +0000\ndata 0\n"
    b"M 100644 inline file\ndata 4\none\n\n"
    b"commit refs/heads/side\nmark :2\ncommitter A <a@x> 2 +0000\ndata 0\nfrom :1\n"
    b"M 100644 inline file\ndata 4\ntwo\n\n"
)
SECOND = (
    b"commit refs/heads/main\nmark :3\ncommitter A <a@x> 3 +0000\ndata 0\nfrom refs/heads/main^0\n"
    b"M 100644 inline more\ndata 4\none\n\n"
    b"tag v1\nfrom :3\ntagger A <a@x> 4 +0000\ndata 3\none\n"
)


class Place(NamedTuple):
    """A call of a run: the Nth of its kind that programs of this command line make."""

    program: str
    name: str
    number: int


class Fault(NamedTuple):
    """What one of them fails with."""

    place: Place
    error: str

    def __str__(self) -> str:
        return f"{self.place.program}: {self.place.name} {self.place.number} {self.error}"

    @classmethod
    def read(cls, text: str) -> Fault:
        program, _, rest = text.rpartition(": ")
        name, number, error = rest.split()
        return cls(Place(program, name, int(number)), error)


class Calls:
    """Counts the calls of a run, and has one of them fail."""

    def __init__(self, fault: Fault | None = None):
        self.fault, self.has_failed = fault, False
        self.made: Counter[tuple[str, str]] = Counter()
        # those on the store and beside it, and the others
        self.near: list[Place] = []
        self.others: list[Place] = []

    def judge(self, call: Call) -> int:
        if self.has_failed:
            return 0
        kind = call.program(), call.name
        if kind[0] == OURS:
            return 0
        self.made[kind] += 1
        place = Place(*kind, self.made[kind])
        if not self.fault:
            (self.near if "s.gx" in call.place() else self.others).append(place)
        elif self.fault.place == place:
            self.has_failed = True
            return getattr(errno, self.fault.error)
        return 0


@dataclass
class Door:
    """A command that changes the store, and what it may leave."""

    name: str
    folder: Path
    words: list[Word]
    environment: dict[str, str]
    stdin: bytes = b""
    # whether what stands beside the store tells what went out of it
    is_noted: Callable[[Path], bool] = lambda store: True
    # how the command lines begin of those programs of git's that ask for the push. Of some calls
    # they don't look at the result: then they wait for ever, or ask to delete a branch that they
    # were to push, of any remote
    of_git: tuple[str, ...] = ()
    # whether refs may be set for themselves, by a run that tells that it failed
    may_be_half: bool = False
    before: bytes = b""
    after: bytes = b""
    ends: list[dict[str, str]] = field(default_factory=list)  # the refs of both
    calls: Calls = field(default_factory=Calls)

    def fresh(self, world: Path) -> None:
        shutil.rmtree(world, ignore_errors=True)
        shutil.copytree(self.folder / "template", world, symlinks=True)
        (world / "tmp").mkdir()

    def run(self, world: Path, calls: Calls, *names: str) -> Done:
        environment = {**self.environment, "TMPDIR": str(world / "tmp")}
        how = {"cwd": world, "env": environment}
        return run_watched(self.words, names, calls.judge, self.stdin, TIME, **how)

    def learn(self) -> None:
        """What a run leaves of which no call fails, and what calls there are."""
        world = self.folder / "world"
        self.fresh(world)
        store = world / "s.gx"
        self.before = store.read_bytes()
        self.ends.append(self.refs_of(store))
        done = self.run(world, self.calls, *NUMBERS)
        assert done.status == 0, done
        self.after = store.read_bytes()
        self.ends.append(self.refs_of(store))
        assert self.before != self.after
        told = f"{len(self.calls.near)} calls near the store, {len(self.calls.others)} others"
        print(f"{self.name}: {told}", flush=True)

    def faults(self, randoms: random.Random) -> Iterator[Fault]:
        """All of them, none twice: by turns one on the store and another. Of the others, programs
        with few calls come as often as those with many."""
        near = [Fault(place, error) for place in self.calls.near for error in ERRORS]
        randoms.shuffle(near)
        by_kind: dict[str, dict[str, list[Fault]]] = {}
        for place in self.calls.others:
            kinds = by_kind.setdefault(place.program, {})
            kinds.setdefault(place.name, []).extend(Fault(place, error) for error in ERRORS)
        while near or by_kind:
            if near:
                yield near.pop()
            if by_kind:
                program = randoms.choice(list(by_kind))
                name = randoms.choice(list(by_kind[program]))
                faults = by_kind[program][name]
                yield faults.pop(randoms.randrange(len(faults)))
                if not faults:
                    del by_kind[program][name]
                if not by_kind[program]:
                    del by_kind[program]

    def verdict(self, world: Path, fault: Fault) -> str | None:
        """What came of a run with a fault; None where the call wasn't made."""
        self.fresh(world)
        calls, store = Calls(fault), world / "s.gx"
        try:
            done = self.run(world, calls, fault.place.name)
        except TimeoutExpired:
            is_whole = store.read_bytes() in (self.before, self.after)
            is_of_git = fault.place.program.startswith(self.of_git)
            return "git hangs" if is_of_git and is_whole else "bad: hangs"
        if not calls.has_failed:
            return None
        verdict = self.verdict_of(world, store, done)
        if fault.place.program.startswith(self.of_git) and self.is_between(store, None):
            verdict = verdict.replace("bad: neither before nor after", "git asks for else")
        if verdict not in ("before", "after"):
            said = (done.out + done.err).decode(errors="replace").strip()[-300:]
            told = f"{verdict}, status {done.status}, {', '.join(os.listdir(world))}: {said!r}"
            print(f"{self.name}: {fault}: {told}", flush=True)
            if verdict.startswith("bad"):
                print(store.read_bytes() if store.exists() else "no store", flush=True)
        return verdict

    def refs_of(self, store: Path) -> dict[str, str]:
        words = [self.environment["GX"], "refs", store]
        rows = printed(run_program(words, env=self.environment), words).decode().splitlines()
        return dict(reversed(row.split(" ", 1)) for row in rows)

    def is_between(self, store: Path, *others: None) -> bool:
        """Whether it is whole, and each ref as before or as after, or as told."""
        try:
            refs = self.refs_of(store)
        except AssertionError:
            return False
        names = {*refs, *(name for end in self.ends for name in end)}
        ends = {name: [*others, *(end.get(name) for end in self.ends)] for name in names}
        return all(refs.get(name) in ends[name] for name in names)

    def verdict_of(self, world: Path, store: Path, done: Done) -> str:
        text = store.read_bytes() if store.exists() else b""
        if not self.is_between(store):
            return "bad: neither before nor after"
        if self.ends[0].keys() - self.refs_of(store).keys() and not self.is_noted(store):
            return "bad: what went isn't noted"
        if text not in (self.before, self.after):
            is_half = self.may_be_half and done.status
            return "half, and told as failed" if is_half else "bad: neither before nor after"
        if done.status == 0 and text == self.before:
            return "bad: not done, and told as done"
        if store.with_name("s.gx.new").exists():
            # gx was killed, as where Python can't read what it says: the next run removes it
            self.run(world, Calls(), "execve")
            text, left = store.read_bytes(), store.with_name("s.gx.new").exists()
            return "bad: not made good" if left or text != self.after else "made good"
        if done.status and text == self.after:
            return "after, and told as failed"
        return "after" if text == self.after else "before"


class Ledger:
    """The faults that were tried of a door, and what came of them, in a file if there is one."""

    def __init__(self, path: Path | None, door: str):
        self.path, self.door, self.lock = path, door, threading.Lock()
        text = path.read_text() if path and path.exists() else ""
        rows = [line.split("\t") for line in text.splitlines()]
        self.verdicts = {fault: verdict for name, fault, verdict in rows if name == door}

    def note(self, fault: Fault, verdict: str) -> None:
        with self.lock:
            self.verdicts[str(fault)] = verdict
            if self.path:
                with open(self.path, "a") as file:
                    file.write(f"{self.door}\t{fault}\t{verdict}\n")
            if len(self.verdicts) % 100 == 0:
                print(f"{self.door}: {dict(self.counts())}", flush=True)

    def counts(self) -> Counter[str]:
        return Counter(self.verdicts.values())


class Trial:
    """How many faults are to be tried, and where that is noted."""

    def __init__(self, config: pytest.Config, randoms: random.Random):
        self.is_long = config.getoption("long")
        self.count = 2000 if self.is_long else 12
        self.ledger: Path | None = config.getoption("ledger")
        self.fault: str | None = config.getoption("fault")
        self.randoms = randoms

    def of(self, door: Door, count: int | None = None) -> Counter[str]:
        """What came of so many faults, several at a time."""
        door.learn()
        if self.fault:
            verdict = door.verdict(door.folder / "world", Fault.read(self.fault))
            return Counter([verdict or "bad: no such call"])
        ledger, wanted = Ledger(self.ledger, door.name), count or self.count
        # where the machine is busy a run may only seem to hang
        hung = [fault for fault, verdict in ledger.verdicts.items() if verdict == "bad: hangs"]
        for fault in hung:
            del ledger.verdicts[fault]
        known = set(ledger.verdicts)
        faults = (one for one in door.faults(self.randoms) if str(one) not in known)
        lock = threading.Lock()

        def work(number: int) -> None:
            while True:
                with lock:
                    fault = next(faults, None) if len(ledger.verdicts) < wanted else None
                if fault is None:
                    return
                verdict = door.verdict(door.folder / f"world{number}", fault)
                if verdict:
                    ledger.note(fault, verdict)

        workers = len(os.sched_getaffinity(0)) if self.is_long else 1
        with ThreadPoolExecutor(workers) as pool:
            for _ in pool.map(work, range(workers)):
                pass
        print(f"{door.name}: {dict(ledger.counts())}")
        return ledger.counts()


@pytest.fixture
def trial(request: pytest.FixtureRequest, randoms: random.Random) -> Trial:
    return Trial(request.config, randoms)


@pytest.fixture
def template(tmp_path: Path, gx: Program, git: Callable[..., bytes]) -> Path:
    """A store of a repository that has gone on: a branch further, one away, a tag new."""
    folder = tmp_path / "template"
    folder.mkdir()
    git("init", "-q", "--template=", "-b", "main", folder / "project")
    git("fast-import", "--quiet", cwd=folder / "project", stdin=FIRST)
    gx.prints("init", folder / "s.gx")
    gx.prints("import", folder / "s.gx", stdin=FIRST)
    git("fast-import", "--quiet", cwd=folder / "project", stdin=SECOND)
    git("update-ref", "-d", "refs/heads/side", cwd=folder / "project")
    return folder


@pytest.fixture
def through(template: Path, gx: Program) -> Callable[..., Door]:
    def made(name: str, *words: Word, **more) -> Door:
        return Door(name, template.parent, list(words), **{"environment": gx.environment, **more})

    return made


def passed(verdicts: Counter[str]) -> bool:
    return not any(verdict.startswith("bad") for verdict in verdicts)


@needs_faults
def test_push(through: Callable[..., Door], trial: Trial) -> None:
    words = ["git", "-C", "project", "push", "-q", "--atomic", "gx::../s.gx"]
    of_git = ("git -C project push", "git remote-gx")
    door = through("push", *words, "main", "v1", ":side", of_git=of_git)
    assert passed(trial.of(door))


def notes_side(store: Path) -> bool:
    noted = store.with_name("s.gx.dropped")
    return noted.exists() and b" refs/heads/side\n" in noted.read_bytes()


@needs_faults
def test_mirror(through: Callable[..., Door], trial: Trial) -> None:
    words = [sys.executable, SCRIPTS / "gx-mirror", "project", "s.gx"]
    more = {"is_noted": notes_side, "may_be_half": True}
    assert passed(trial.of(through("mirror", *words, **more)))


@needs_faults
@pytest.mark.parametrize("way, code", [("change", CHANGE), ("save", SAVE)])
def test_python(
    gx: Program, shared: Path, through: Callable[..., Door], trial: Trial, way: str, code: str
) -> None:
    paths = {"PYTHONPATH": str(TOP / "python"), "GINLARCH_LIBRARY": str(shared)}
    more = {"environment": {**gx.environment, **paths}, "stdin": SECOND}
    door = through(way, sys.executable, "-c", code, "s.gx", **more)
    assert passed(trial.of(door, trial.count // 2))
