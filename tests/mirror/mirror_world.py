"""A repository of git, a store, and gx-mirror between them."""

from __future__ import annotations

import itertools
import os
import shutil
import sys
import time
from collections.abc import Iterable
from pathlib import Path

from growing_texts import record_lines
from programs import SCRIPTS, Done, Program, Word, printed, run_program

NOTHING = b"0" * 40
FAILED, USAGE, STAYS, UNTRUSTED = 1, 2, 3, 4
DAY = 86400
MIRROR = [sys.executable, SCRIPTS / "gx-mirror"]
TIMES = itertools.count(1)


def lines_of(words: Iterable[bytes]) -> bytes:
    return b"".join(word + b"\n" for word in words)


class Repository:
    """A repository of git, in a folder."""

    def __init__(self, path: Path, environment: dict[str, str], *options: str):
        self.path, self.environment = path, environment
        if not path.exists():
            self.git("init", "-q", "-b", "main", *options, path, cwd=path.parent)

    def git(self, *words: Word, stdin: bytes = b"", **more) -> bytes:
        how = {"env": self.environment, "cwd": self.path, **more}
        return printed(run_program(["git", *words], stdin, **how), ["git", *words])

    def commit(self, name: str, *parents: bytes, **files: bytes) -> bytes:
        """A commit on a branch, behind what it has if no parents are given."""
        branch = b"refs/heads/" + name.encode()
        old = [held for ref, held in self.refs().items() if ref == branch]
        who = b"committer A <a@x> %d +0000" % next(TIMES)
        lines = [b"commit " + branch, b"mark :1", who, b"data 0"]
        lines += [b"from " + parent for parent in parents or old]
        for path, text in (files or {"file": who}).items():
            lines += [b"M 644 inline " + path.encode(), b"data %d" % len(text), text]
        stream = lines_of([*lines, b"", b"get-mark :1"])
        return self.git("fast-import", "--quiet", "--force", stdin=stream).strip()

    def early(self, digits: bytes, *parents: bytes) -> bytes:
        """A commit as this one, as of a second before 1970, which no store holds."""
        return self.changed(digits, b"\ncommitter A <a@x> ", b"\ncommitter A <a@x> -", parents)

    def signed(self, digits: bytes, *parents: bytes) -> bytes:
        """A commit as this one, with a signature."""
        return self.changed(digits, b"\n\n", b"\ngpgsig sign\n\n", parents)

    def changed(self, digits: bytes, old: bytes, new: bytes, parents: Iterable[bytes]) -> bytes:
        """A commit as this one, on more parents, with a text of its head in place of another."""
        head, _, message = self.git("cat-file", "commit", digits).partition(b"\n\n")
        above = b"".join(b"parent %s\n" % parent for parent in parents)
        head = head.replace(b"\nauthor ", b"\n" + above + b"author ", 1)
        text = (head + b"\n\n").replace(old, new, 1) + message
        words = ["hash-object", "--literally", "-w", "-t", "commit", "--stdin"]
        return self.git(*words, stdin=text).strip()

    def tag(self, name: bytes, kind: bytes, digits: bytes) -> bytes:
        """A tag object that no ref has."""
        of = b"object %s\ntype %s\n" % (digits, kind)
        text = of + b"tag %s\ntagger T <t@x> 1 +0000\n\nt\n" % name
        return self.git("mktag", stdin=text).strip()

    def set(self, refs: dict[bytes, bytes]) -> None:
        """Sets refs, or deletes those that are to have nothing."""
        lines = (b"update %s %s" % row for row in refs.items())
        self.git("update-ref", "--stdin", stdin=lines_of(lines))

    def delete(self, *refs: bytes) -> None:
        self.set(dict.fromkeys(refs, NOTHING))

    def refs(self) -> dict[bytes, bytes]:
        """The digits of each ref that isn't symbolic."""
        told = self.git("for-each-ref", "--format=%(refname) %(objectname) %(symref)")
        rows = [line.split() for line in told.splitlines()]
        return {row[0]: row[1] for row in rows if len(row) == 2}

    def objects(self) -> list[bytes]:
        """Name, kind and size of each object that a ref reaches."""
        names = self.git("rev-list", "--all", "--objects", "--no-object-names")
        return sorted(self.git("cat-file", "--batch-check", stdin=names).splitlines())

    def folder(self) -> Path:
        return Path(os.fsdecode(self.git("rev-parse", "--absolute-git-dir")[:-1]))


class Store:
    """A store, and what stands beside it."""

    def __init__(self, path: Path, gx: Program):
        self.path, self.gx = path, gx

    def beside(self, ending: str) -> Path:
        return self.path.with_name(self.path.name + ending)

    def refs(self) -> dict[bytes, bytes]:
        rows = [line.split(b" ", 1) for line in self.gx.prints("refs", self.path).splitlines()]
        return {ref: digits for digits, ref in rows}

    def lines(self) -> list[list[bytes]]:
        """The words of each line of FILE.dropped."""
        file = self.beside(".dropped")
        text = file.read_bytes() if file.exists() else b""
        return [line.split(b" ") for line in text.splitlines()]

    def notes(self) -> list[tuple[bytes, bytes]]:
        """Digits and ref of each line of FILE.dropped, which have to be of now."""
        rows = self.lines()
        assert all(abs(int(seconds) - time.time()) < 1000 for seconds, _, _ in rows), rows
        return sorted((digits, ref) for _, digits, ref in rows)

    def age(self, days: float) -> None:
        """Makes what FILE.dropped tells older."""
        rows = [(int(seconds) - days * DAY, digits, ref) for seconds, digits, ref in self.lines()]
        self.beside(".dropped").write_bytes(lines_of(b"%d %s %s" % row for row in rows))

    def records(self) -> list[bytes]:
        """Name, kind and size of each object, as git tells them."""
        lines = (line.split() for line in record_lines(self.path.read_bytes()))
        return sorted(b"%s %s %s" % (digits, kind, size) for kind, size, digits in lines)

    def names(self) -> set[bytes]:
        return {row.split()[0] for row in self.records()}

    def files(self) -> dict[str, bytes]:
        """All files that its name begins, and what they have."""
        found = self.path.parent.glob(self.path.name + "*")
        return {path.name: path.read_bytes() for path in found if path.is_file()}


class World:
    """A repository, a store and the mirror between them."""

    def __init__(self, folder: Path, gx: Program, environment: dict[str, str]):
        self.environment, self.folder = environment, folder
        self.repository = Repository(folder / "project", environment)
        self.store = Store(folder / "s.gx", gx)

    def mirror(
        self, *options: str, source: Path | None = None, front: Iterable[str] = (), **more
    ) -> Done:
        files = [source or self.repository.path, self.store.path]
        words = [*front, *MIRROR, *options, *files]
        return run_program(words, **{"env": self.environment, **more})

    def follows(self, *options: str, **more) -> Done:
        """A run that has to end well, with the same refs on both sides."""
        done = self.mirror(*options, **more)
        assert done.status == 0, done
        assert self.store.refs() == self.repository.refs()
        return done

    def stops(self, status: int, *said: str, **more) -> None:
        """A run that has to write nothing, and to tell why."""
        before = self.store.files()
        done = self.mirror(**more)
        assert done.status == status, done
        assert all(word.encode() in done.err for word in said), done
        assert self.store.files() == before

    def reached(self, digits: Iterable[bytes]) -> set[bytes]:
        """The names of all objects that these reach in git, or reached before it forgot some."""
        words = ["rev-list", "--objects", "--no-object-names", "--stdin"]
        forgotten = str(self.folder / "forgotten")
        env = {**self.environment, "GIT_ALTERNATE_OBJECT_DIRECTORIES": forgotten}
        return set(self.repository.git(*words, stdin=lines_of(digits), env=env).split())


class Counted:
    """gx and git with a line of shell before them, which by itself notes that they are run."""

    def __init__(self, folder: Path, gx: Program, environment: dict[str, str]):
        folder.mkdir()
        self.folder, self.log = folder, folder / "log"
        self.programs = {"gx": gx.path, "git": Path(shutil.which("git"))}
        path = f"{folder}:{environment['PATH']}"
        self.environment = {**environment, "GX": str(folder / "gx"), "PATH": path}
        for name in self.programs:
            self.write(name, f'echo "{name} $*" >> {self.log}')

    def write(self, name: str, first: str) -> None:
        lines = f'#!/bin/sh\n{first}\nexec {self.programs[name]} "$@"\n'
        (self.folder / name).write_text(lines)
        (self.folder / name).chmod(0o755)

    def runs(self, name: str) -> list[str]:
        """The command of each run of a program."""
        rows = [line.split() for line in self.log.read_text().splitlines()]
        mine = [row[1:] for row in rows if row[0] == name]
        return [next(word for word in row if not word.startswith("-")) for row in mine]
