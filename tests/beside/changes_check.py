"""What a text of changes tells, command by command, beside what git has of it."""

from __future__ import annotations

from typing import Any

from changes_text import Command, read_text
from histories import MODULE
from places import Repository, same

EMPTY_TREE = b"4b825dc642cb6eb9a060e54bf8d69288fbee4904"
Parents = dict[bytes, list[bytes]]
Change = tuple[bytes | None, bytes | None, bytes]


def branches_of(
    refs: list[bytes], peeled: dict[bytes, bytes], parents: Parents
) -> dict[bytes, bytes]:
    """The ref of each commit: the first branch that reaches it, or else the first ref that does."""
    heads = [ref for ref in refs if ref.startswith(b"refs/heads/")]
    found: dict[bytes, bytes] = {}
    for ref in heads + refs:
        left = [peeled[ref]]
        while left:
            commit = left.pop()
            if commit not in found:
                found[commit] = ref
                left += parents[commit]
    return found


def differences(
    repository: Repository, trees: dict[bytes, bytes], parents: Parents
) -> dict[bytes, list[Change]]:
    """What git tells that each commit changes, as the lines of a text have it: what is gone
    first."""
    bases = {commit: trees[of[0]] if of else EMPTY_TREE for commit, of in parents.items()}
    asked = b"".join(b"%s %s\n" % (bases[commit], trees[commit]) for commit in bases)
    told = repository.git("diff-tree", "--stdin", "-r", "-z", "--no-renames", given=asked)
    found = {}
    for commit in bases:
        gone, other = [], []
        told = told[82:]
        while told.startswith(b":"):
            row, path, told = told.split(b"\0", 2)
            _, mode, _, name, status = row.split()
            if status == b"D":
                gone.append(path)
            else:
                other.append((path, mode, name))
        found[commit] = [(None, None, path) for path in sorted(gone)]
        found[commit] += [(mode, name, path) for path, mode, name in sorted(other)]
    same(told, b"", "what is left of what diff-tree tells")
    return found


class Check:
    """What a text tells, beside what git has of it. `marks` are the names that it gave."""

    def __init__(self, copy: Repository, marks: dict[bytes, bytes], what: str):
        self.what, self.marks, self.here = what, marks, what
        self.parents, self.trees = copy.commits()
        self.refs, self.peeled = copy.peeled()
        self.branches = branches_of(self.refs, self.peeled, self.parents)
        self.differences = differences(copy, self.trees, self.parents)
        self.order: list[bytes] = []
        self.tail: list[tuple[bytes, bytes]] = []
        self.fresh: list[bytes] = []
        self.seen: set[bytes] = set()
        self.reset: bytes | None = None
        self.given: dict[bytes, bytes] = {}  # the mark of each commit so far

    def same(self, found: Any, wanted: Any, what: str) -> None:
        same(found, wanted, f"{self.here}: {what}")

    def name(self, given: bytes | None) -> bytes | None:
        """The name that a mark has, or that is written as digits."""
        return self.marks.get(given, given)

    def commit_name(self, given: bytes) -> bytes:
        """The name of a commit that a mark has, or that is written as digits and `^0`, as no ref
        can be."""
        if given in self.marks:
            return self.marks[given]
        self.same(given[40:], b"^0", "what stands behind a commit's digits")
        return given[:40]

    def read(self, command: Command) -> None:
        if command.word == b"blob":
            self.fresh.append(self.marks[command.mark])
        elif command.word == b"commit":
            self.read_commit(command)
        elif command.start is None:
            self.reset = command.ref
        else:
            self.tail.append((command.ref, self.commit_name(command.start)))

    def read_commit(self, command: Command) -> None:
        commit = self.marks[command.mark]
        parents = self.parents[commit]
        self.here = f"{self.what}, commit {commit.decode()}"
        self.same(self.tail, [], "refs set before it")
        self.same(command.ref, self.branches[commit], "its ref")
        self.same(self.reset, None if parents else command.ref, "the reset before it")
        named = [
            parent if parent.startswith(b":") else self.commit_name(parent)
            for parent in command.parents
        ]
        wanted = [self.given.get(parent, parent) for parent in parents]
        self.same(named, wanted, "its parents, by mark where they were sent")
        changes = [(mode, self.name(given), path) for mode, given, path in command.changes]
        self.same(changes, self.differences[commit], "its changes")
        needed = [
            name
            for mode, name, _ in changes
            if mode not in (None, MODULE) and name not in self.seen
        ]
        self.same(self.fresh, list(dict.fromkeys(needed)), "the blobs before it")
        self.seen.update(self.fresh)
        self.order.append(commit)
        self.given[commit] = command.mark
        self.fresh, self.reset = [], None

    def end(self) -> list[bytes]:
        self.here = self.what
        self.same(self.fresh, [], "blobs behind the commits")
        wanted = [(ref, self.peeled[ref]) for ref in self.refs]
        self.same(self.tail, wanted, "the refs at the end")
        return self.order


def check_text(text: bytes, copy: Repository, marks: dict[bytes, bytes], what: str) -> list[bytes]:
    """Each command of a text is what it has to be; the commits in their order."""
    check = Check(copy, marks, what)
    for command in read_text(text):
        check.read(command)
    return check.end()


def check_paths(text: bytes, git_text: bytes, what: str) -> None:
    """Paths are printed as git prints them, which has quotes also around one with a space, where
    none are needed."""
    shown = dict(pair for command in read_text(git_text) for pair in command.shown)
    for command in read_text(text):
        for path, printed in command.shown:
            wanted = shown.get(path, printed)
            if wanted == b'"' + path + b'"':
                wanted = path
            same(printed, wanted, f"{what}: how {path!r} is printed")
