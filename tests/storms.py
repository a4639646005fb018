"""Programs that write one store at once, each of them a branch of its own, and a ledger of what
they were told.
"""

from __future__ import annotations

import contextlib
import itertools
import os
import random
import signal
import subprocess
import sys
import threading
import time
from collections import Counter
from pathlib import Path

from programs import SCRIPTS, TOP, Done, Program, Word, printed, processes, run_program
from store_files import named

NOTHING = "0" * 40
EMPTY_TREE = "4b825dc642cb6eb9a060e54bf8d69288fbee4904"
LONGEST = 300  # seconds that a storm may go on until each kind of run was done
CHANGES = """
import sys
from ginlarch import Repository, StoreChanged
way, path, ref = sys.argv[1:]
stream = sys.stdin.buffer.read()
if way == "change":
    with Repository.change(path) as repository:
        repository.import_stream(stream)
        made = repository.refs[ref]
else:
    repository = Repository.open(path)
    repository.import_stream(stream)
    made = repository.refs[ref]
    try:
        repository.save(path)
    except StoreChanged:
        sys.exit(3)
print(made)
"""


class Ledger:
    """What was published and what was let go, over all actors."""

    def __init__(self) -> None:
        self.lock, self.counts = threading.Lock(), Counter()
        self.parents: dict[str, str | None] = {}
        self.published: set[str] = set()
        self.gone: set[str] = set()  # what commands that named it let go

    def count(self, what: str) -> None:
        with self.lock:
            self.counts[what] += 1

    def publish(self, digits: str) -> None:
        with self.lock:
            self.published.add(digits)

    def let_go(self, old: str, new: str | None) -> None:
        """A command put `new` in the place of `old`."""
        with self.lock:
            self.gone |= self.reached({old}) - self.reached({new})

    def reached(self, tips: set[str | None]) -> set[str]:
        """The commits that these reach, by what the actors made."""
        found: set[str] = set()
        for tip in tips:
            at = tip
            while at and at not in found:
                found.add(at)
                at = self.parents.get(at)
        return found


class Storm:
    """A store that actors write until the time is over, and runs of these kinds were done."""

    def __init__(self, folder: Path, gx: Program, shared: Path, end: float, randoms: random.Random):
        folder.mkdir()
        self.folder, self.gx, self.end, self.randoms = folder, gx, end, randoms
        self.path, self.ledger = folder / "s.gx", Ledger()
        self.dropped = folder / "s.gx.dropped"
        self.wanted: list[str] = []
        self.times, self.failures = itertools.count(1), []
        paths = {"PYTHONPATH": str(TOP / "python"), "GINLARCH_LIBRARY": str(shared)}
        (folder / "tmp").mkdir()
        self.environment = {**gx.environment, **paths, "TMPDIR": str(folder / "tmp")}
        gx.prints("init", self.path)

    def refs(self) -> dict[str, str]:
        """What a reader sees, which has to be a whole store at any time."""
        rows = self.gx.prints("refs", self.path, timeout=300).decode().splitlines()
        return {name: digits for digits, name in (row.split(" ", 1) for row in rows)}

    def noted(self) -> list[str]:
        """The digits of FILE.dropped, where mirrors tell what they drop."""
        with contextlib.suppress(FileNotFoundError):
            return [line.split(" ")[1] for line in self.dropped.read_text().splitlines()]
        return []

    def run(self, what: str, words: list[Word], stdin: bytes = b"") -> Done:
        """A run that may be killed: all that it began, or any one of that."""
        pipe = subprocess.PIPE
        how = {"stdin": pipe, "stdout": pipe, "stderr": pipe, "env": self.environment}
        child = subprocess.Popen(words, **how, cwd=self.folder, start_new_session=True)
        if self.randoms.random() < 0.25:
            delay = self.randoms.choice((0.05, 0.3, 2)) * self.randoms.random()
            threading.Timer(delay, self.kill, [child.pid, self.randoms.random() < 0.5]).start()
        out, err = child.communicate(stdin, timeout=600)
        self.ledger.count(f"{what} {'done' if child.returncode == 0 else 'not done'}")
        return Done(child.returncode, out, err)

    def kill(self, session: int, whole: bool) -> None:
        told = processes(lambda process: os.getsid(process) == session)
        for process in told if whole else told and [self.randoms.choice(told)]:
            with contextlib.suppress(ProcessLookupError):
                os.kill(process, signal.SIGKILL)
                self.ledger.count("killed")

    def rage(self, actors: list[Actor], *wanted: str) -> None:
        """Runs all actors to the end."""
        self.wanted += wanted
        runs = [threading.Thread(target=self.act, args=[actor]) for actor in actors]
        for run in runs:
            run.start()
        for run in runs:
            run.join()
        assert not self.failures, self.failures
        assert not self.missing(), self.ledger.counts

    def missing(self) -> list[str]:
        return [what for what in self.wanted if not self.ledger.counts[f"{what} done"]]

    def is_over(self) -> bool:
        late = time.monotonic() - self.end
        return bool(self.failures) or late > (LONGEST if self.missing() else 0)

    def act(self, actor: Actor) -> None:
        try:
            while not self.is_over():
                actor.step()
        except BaseException as failure:
            self.failures.append(failure)


class Actor:
    """A program that writes a branch of its own, again and again. `head` is what that has."""

    def __init__(self, storm: Storm, name: str):
        self.storm, self.ledger, self.name = storm, storm.ledger, name
        self.ref, self.head = f"refs/heads/{name}", None
        self.sent: set[str] = set()
        row = b"100644 %s\0%s" % (name.encode(), bytes.fromhex(named("blob", b"x\n")))
        self.tree = named("tree", row)

    def step(self) -> None:
        raise NotImplementedError

    def commit(self) -> tuple[bytes, str]:
        """A stream of one more commit, and its digits."""
        who = f"A <a@x> {next(self.storm.times)} +0000"
        parent, came = f"parent {self.head}\n", f"from {self.head}^0\n"
        if not self.head:
            parent = came = ""
        text = f"tree {self.tree}\n{parent}author {who}\ncommitter {who}\n\n"
        made = f"commit {self.ref}\ncommitter {who}\ndata 0\n{came}"
        stream = f"{made}M 100644 inline {self.name}\ndata 2\nx\n\ndone\n"
        return stream.encode(), self.made(named("commit", text.encode()), self.head)

    def made(self, digits: str, parent: str | None) -> str:
        self.ledger.parents[digits] = parent
        self.sent.add(digits)
        return digits

    def settle(self, done: Done, new: str | None) -> None:
        """Behind a command that was to set the branch."""
        if done.status == 0 and new:
            self.ledger.publish(new)
        self.head = self.storm.refs().get(self.ref)
        assert self.head is None or self.head in self.sent, "what a command leaves"

    def settle_lost(self, done: Done, new: str | None) -> None:
        """Behind one that was to put something in the place of what the branch had. One that was
        killed may have done it."""
        old = self.head
        self.settle(done, new)
        if old and (done.status == 0 or self.head != old):
            self.ledger.let_go(old, new)


class Importer(Actor):
    def step(self) -> None:
        stream, digits = self.commit()
        words = [self.storm.gx.path, "import", "--done", "--report", self.storm.path]
        done = self.storm.run("imports", words, stream)
        told = [line.split(" ") for line in done.err.decode().splitlines()]
        mine = [row[1] for row in told if row[2:] == [self.ref]]
        assert done.status or mine == [digits], done
        self.settle(done, digits)


class Claimer(Actor):
    """Imports where the branch has what it had, loses a commit by that, or the branch."""

    def step(self) -> None:
        way, old, stream, new = "", self.head, b"done\n", None
        if old:
            way = self.storm.randoms.choice(("", "", "+", "-"))
        if way == "+":
            self.head = self.ledger.parents[old]
        if way != "-":
            stream, new = self.commit()
        self.head = old
        lines = self.storm.folder / f"{self.name}.lines"
        lines.write_text(f"{way}{old or NOTHING} {self.ref}\n")
        words = [self.storm.gx.path, "import", "--done", f"--push={lines}", self.storm.path]
        done = self.storm.run("claims", words, stream)
        (self.settle_lost if way else self.settle)(done, new)


class Dropper(Importer):
    """Drops its branch after imports, and now and then leaves out what no ref reaches."""

    def step(self) -> None:
        super().step()
        gx, path = self.storm.gx.path, self.storm.path
        if self.head and self.storm.randoms.random() < 0.6:
            self.settle_lost(self.storm.run("drops", [gx, "drop", path, self.ref]), None)
        elif self.storm.randoms.random() < 0.3:
            self.storm.run("gc", [gx, "gc", path])
        elif self.storm.randoms.random() < 0.3:
            keep = self.storm.folder / f"{self.name}.keep"
            keep.write_text("".join(f"{digits}\n" for digits in self.storm.noted()))
            self.storm.run("gc --keep", [gx, "gc", f"--keep={keep}", path])


class Setter(Importer):
    """Sets its branch back to the commit before, and lets go of the last one by that."""

    def step(self) -> None:
        super().step()
        old = self.head
        parent = self.ledger.parents[old] if old else None
        if not parent:
            return
        told = f"update {self.ref} {parent} {old}\n".encode()
        is_told = self.storm.randoms.random() < 0.5
        row = ["--stdin", self.storm.path] if is_told else [self.storm.path, self.ref, parent, old]
        words = [self.storm.gx.path, "set-ref", "--force", *row]
        self.settle_lost(self.storm.run("set-refs", words, told if is_told else b""), parent)


class Changer(Actor):
    """The Python module, by its lock or without."""

    way = "change"

    def step(self) -> None:
        stream, digits = self.commit()
        words = [sys.executable, "-c", CHANGES, self.way, self.storm.path, self.ref]
        done = self.storm.run(f"{self.way}s", words, stream)
        assert done.status or done.out.decode().strip() == digits
        self.settle(done, digits)


class Saver(Changer):
    way = "save"


class Pusher(Actor):
    """A repository of its own, and pushes that go on or are forced."""

    def __init__(self, storm: Storm, name: str):
        super().__init__(storm, name)
        self.folder = storm.folder / name
        self.git("init", "-q", self.folder, cwd=storm.folder)
        self.git("hash-object", "-t", "tree", "-w", "--stdin")

    def git(self, *words: Word, **more) -> str:
        how = {"cwd": self.folder, "env": self.storm.environment, "timeout": 300, **more}
        return printed(run_program(["git", *words], **how), ["git", *words]).decode().strip()

    def commit_on(self, parent: str | None) -> str:
        above = ["-p", parent] if parent else []
        text = str(next(self.storm.times))
        return self.made(self.git("commit-tree", *above, "-m", text, EMPTY_TREE), parent)

    def step(self) -> None:
        is_forced = self.head and self.storm.randoms.random() < 0.3
        new = self.commit_on(self.ledger.parents[self.head] if is_forced else self.head)
        sent = f"{'+' if is_forced else ''}{new}:{self.ref}"
        words = ["git", "-C", self.folder, "push", "-q", f"gx::{self.storm.path}", sent]
        done = self.storm.run("pushes", words)
        # where git-remote-gx was killed gx may still be at work: then this is so the next time
        (self.settle_lost if is_forced else self.settle)(done, new)


class Mirror(Pusher):
    """A source that grows, is forced and loses branches. The store loses all others' branches."""

    def step(self) -> None:
        choice, branch = self.storm.randoms.random(), f"{self.ref}{self.storm.randoms.randrange(4)}"
        held = self.refs()
        if choice < 0.2 and branch in held and len(held) > 1:
            self.git("update-ref", "-d", branch)
        else:
            old = held.get(branch)
            parent = self.ledger.parents[old] if old and choice < 0.4 else old
            self.git("update-ref", branch, self.commit_on(parent))
        self.mirror()

    def refs(self) -> dict[str, str]:
        rows = self.git("for-each-ref", "--format=%(refname) %(objectname)").splitlines()
        return dict(row.split(" ") for row in rows)

    def words(self) -> list[Word]:
        return [sys.executable, SCRIPTS / "gx-mirror", self.folder, self.storm.path]

    def mirror(self) -> None:
        before = self.refs()
        done = self.storm.run("mirrors", self.words())
        if done.status == 0 and self.refs() == before:
            for digits in before.values():
                self.ledger.publish(digits)


class Follower(Mirror):
    """Another mirror of the same source."""

    def __init__(self, storm: Storm, source: Mirror):
        Actor.__init__(self, storm, source.name)
        self.folder = source.folder

    step = Mirror.mirror


def actors_of(storm: Storm, kinds: dict[type[Actor], int]) -> list[Actor]:
    names = [(kind, f"{kind.__name__.lower()}{n}") for kind in kinds for n in range(kinds[kind])]
    return [kind(storm, name) for kind, name in names]
