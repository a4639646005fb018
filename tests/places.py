"""Repositories of git and stores that tests fill and ask."""

from __future__ import annotations

import shutil
from collections.abc import Callable, Iterable, Iterator
from contextlib import AbstractContextManager
from pathlib import Path
from typing import Any

from growing_texts import record_lines
from histories import Step
from hypothesis import currently_in_test_context, note
from programs import Program, Word, counted, printed, run_program

SETTINGS = ["-c", "core.compression=0", "-c", "gc.auto=0", "-c", "fastimport.unpackLimit=1"]
GIT = ["git", *SETTINGS]
WHOLE = ["--signed-tags=verbatim", "--reencode=no", "--use-done-feature", "--all", "--full-tree"]
TIMEOUT = 900  # of one program, since streams by name may be large


def same(found: Any, wanted: Any, what: str) -> None:
    """Compares two things."""
    counted["things compared"] += 1
    if found != wanted:
        shown = f"found  {str(found)[:2000]}\n  wanted {str(wanted)[:2000]}"
        raise AssertionError(f"{what} differ\n  {shown}")


def tell(line: str) -> None:
    """Tells a line if the test fails: of the shortest history that hypothesis found."""
    if currently_in_test_context():
        note(line)
    else:
        print(line)


def in_shell(text: bytes) -> str:
    """A command that prints these bytes."""
    plain = {10: "\\n", 37: "%%"}
    plain |= {byte: chr(byte) for byte in range(32, 127) if byte not in b"'\\%"}
    shown = "".join(plain.get(byte, f"\\{byte:03o}") for byte in text)
    return f"printf '{shown}'"


class Repository:
    """A bare repository of git. `kept` is a file of marks that streams share."""

    def __init__(self, path: Path, environment: dict[str, str], kept: Path | None = None):
        self.path, self.environment, self.kept = path, environment, kept
        words = [*GIT, "init", "-q", "--bare", "-b", "none", path]
        printed(run_program(words, env=environment), words)

    def copy(self, name: str) -> Repository:
        """A copy beside it."""
        shutil.copytree(self.path, self.path.with_name(name))
        return Repository(self.path.with_name(name), self.environment)

    def git(self, *words: Word, given: bytes = b"") -> bytes:
        command = [*GIT, "-C", self.path, *words]
        return printed(run_program(command, given, TIMEOUT, env=self.environment), command)

    def take(self, text: bytes, *words: Word) -> dict[bytes, bytes]:
        """Imports a stream, and answers the names of its marks."""
        marks = self.kept or self.path / "marks"
        old = [f"--import-marks-if-exists={marks}"] if self.kept else []
        self.git("fast-import", "--quiet", *old, f"--export-marks={marks}", *words, given=text)
        rows = (line.split() for line in marks.read_bytes().splitlines())
        return {mark: name for mark, name in rows}

    def follow(self, step: Step) -> None:
        """Takes a step of a history, and tells the commands that repeat it."""
        git = f"git -C {self.path.name}"
        marks = "--import-marks-if-exists=../marks --export-marks=../marks"
        if step.gone:
            gone = b"".join(b"delete %s\n" % ref for ref in step.gone)
            tell(f"{in_shell(gone)} | {git} update-ref --stdin")
        tell(f"{in_shell(step.stream)} | {git} fast-import --quiet --force {marks}")
        self.drop(step.gone)
        self.take(step.stream, "--force")

    def keep_marks(self) -> set[int]:
        """Drops the marks of commits that are no more, and answers the numbers of the others."""
        assert self.kept
        rows = [line.split() for line in self.kept.read_bytes().splitlines()]
        asked = b"".join(row[1] + b"\n" for row in rows)
        told = self.git("cat-file", "--batch-check", given=asked).splitlines()
        rows = [row for row, line in zip(rows, told) if not line.endswith(b" missing")]
        self.kept.write_bytes(b"".join(b" ".join(row) + b"\n" for row in rows))
        return {int(row[0][1:]) for row in rows}

    def drop(self, refs: Iterable[bytes]) -> None:
        lines = b"".join(b"delete %s\n" % ref for ref in refs)
        self.git("update-ref", "--stdin", given=lines)

    def export(self, *words: Word) -> bytes:
        """What `git fast-export` writes of it."""
        return self.git("fast-export", *WHOLE[:-1], *words)

    def refs(self) -> bytes:
        """The refs, as `gx refs` prints them."""
        return self.git("for-each-ref", "--format=%(objectname) %(refname)")

    def named(self) -> dict[bytes, bytes]:
        return {line.split()[1]: line.split()[0] for line in self.refs().splitlines()}

    def peeled(self) -> tuple[list[bytes], dict[bytes, bytes]]:
        """The refs in byte order, and the commit of each."""
        form = "--format=%(refname) %(objectname) %(*objectname)"
        rows = [line.split() for line in self.git("for-each-ref", form).splitlines()]
        peeled = {row[0]: row[-1] for row in rows}
        return sorted(peeled), peeled

    def commits(self) -> tuple[dict[bytes, list[bytes]], dict[bytes, bytes]]:
        """The parents and the tree of each commit that a ref reaches."""
        rows = [line.split() for line in self.git("log", "--all", "--format=%H %T %P").splitlines()]
        return {row[0]: row[2:] for row in rows}, {row[0]: row[1] for row in rows}

    def objects(self) -> list[bytes]:
        """Name, kind and size of each object that a ref reaches."""
        names = self.git("rev-list", "--all", "--objects", "--no-object-names")
        return sorted(self.git("cat-file", "--batch-check", given=names).splitlines())

    def all_objects(self) -> list[bytes]:
        return self.git("cat-file", "--batch-all-objects", "--batch-check").splitlines()

    def holds(self, objects: list[bytes]) -> bool:
        return set(objects) <= set(self.all_objects())

    def drop_file(self) -> None:
        shutil.rmtree(self.path)


class Store:
    """A store. What is in its file is read here."""

    def __init__(self, path: Path, gx: Program):
        self.path, self.gx = path, gx
        if not path.exists():
            gx.prints("init", path)

    def copy(self, name: str) -> Store:
        """A copy beside it."""
        shutil.copy(self.path, self.path.with_name(name))
        return Store(self.path.with_name(name), self.gx)

    def prints(self, *words: Word, given: bytes = b"") -> bytes:
        return self.gx.prints(*words, stdin=given, timeout=TIMEOUT)

    def take(self, text: bytes, *words: Word) -> None:
        self.prints("import", *words, self.path, given=text)

    def follow(self, origin: Repository, gone: Iterable[bytes] = ()) -> None:
        """Drops refs, takes what a repository of git has, and tells the commands that repeat it."""
        name = self.path.name
        export = f"git -C {origin.path.name} fast-export {' '.join(WHOLE)}"
        if gone:
            tell(f"gx drop {name} {' '.join(map(bytes.decode, gone))}")
        tell(f"{export} | gx import --done --force {name}")
        self.drop(gone)
        self.take(origin.export("--full-tree"), "--done", "--force")

    def drop(self, refs: Iterable[bytes]) -> None:
        if refs:
            self.prints("drop", self.path, *refs)

    def changes(self, *words: Word) -> bytes:
        """The export of changes: range words stand behind `--`."""
        front = list(words[:1]) if words[:1] == ("--no-done",) else []
        return self.prints("export", "--changes", *front, self.path, *words[len(front) :])

    def refs(self) -> bytes:
        return self.prints("refs", self.path)

    def records(self) -> Iterator[tuple[bytes, bytes, bytes]]:
        """Kind, size and digits of each record, in order."""
        for line in record_lines(self.path.read_bytes()):
            kind, size, digits = line.split()
            yield kind, size, digits

    def all_objects(self) -> list[bytes]:
        """Name, kind and size of each object, as git tells them."""
        return sorted(b"%s %s %s" % (digits, kind, size) for kind, size, digits in self.records())

    def holds(self, objects: list[bytes]) -> bool:
        return set(objects) <= set(self.all_objects())

    def commits(self, among: set[bytes] | None = None) -> list[bytes]:
        """The commits in their order: all, or those among some."""
        commits = [digits for kind, _, digits in self.records() if kind == b"commit"]
        return commits if among is None else [name for name in commits if name in among]

    def drop_file(self) -> None:
        self.path.unlink(missing_ok=True)


class Places:
    """Makes repositories and stores in a folder."""

    def __init__(self, folder: Path, gx: Program):
        self.folder, self.gx = folder, gx

    def repository(self, name: str) -> Repository:
        return Repository(self.folder / name, self.gx.environment)

    def store(self, name: str) -> Store:
        return Store(self.folder / name, self.gx)

    def origin(self) -> tuple[Repository, Store]:
        """A repository in which a history grows, and a store that follows it."""
        tell("git init -q --bare -b none origin.git && gx init origin.gx")
        kept = self.folder / "marks"
        repository = Repository(self.folder / "origin.git", self.gx.environment, kept)
        return repository, self.store("origin.gx")


# places in a folder of their own, which goes with them
MakePlaces = Callable[[], AbstractContextManager[Places]]
