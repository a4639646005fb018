"""Histories made at random, as streams of git-fast-import(1).

A history grows in steps. A step deletes refs, and then is a stream that goes on from the marks of
the steps before: commits that change files and directories, merges, roots, tags, and refs that are
moved to any commit. All of it follows from the random numbers of the history. In `histories` these
are hypothesis's: so a history that fails is made as short as it can be.
"""

from __future__ import annotations

import random
from typing import NamedTuple, TypeVar

from hypothesis import assume
from hypothesis import strategies as st

COMPONENTS = [b"a", b"b", b"a.b", b"a-", b"a0", b"c d", b'q"q', b"t\tt", b"\xc3\xa4", b"\xe4"]
COMPONENTS += [b"z\\z", b"A"]
FILE, PROGRAM, LINK, MODULE = b"100644", b"100755", b"120000", b"160000"
MODES = [FILE] * 6 + [PROGRAM] * 2 + [LINK, MODULE]
WHO = b"%s <%s@example.com> %d +0%d00"
MESSAGES = [b"Commit %d\n", b"Commit %d", b"Commit %d\n\nIts reason.\n", b"\nCommit %d\n\n\n"]
TOPICS = [b"refs/heads/topic%d", b"refs/heads/a%d", b"refs/remotes/o/t%d"]

Element = TypeVar("Element")


class Step(NamedTuple):
    """The refs that are deleted first, and the stream behind that."""

    gone: list[bytes]
    stream: bytes


def quoted(path: bytes) -> bytes:
    """A path as a stream may have it: in quotes where that is needed, such a byte by its digits."""
    shown = [
        bytes([byte]) if 32 <= byte < 127 and byte not in b'"\\' else b"\\%03o" % byte
        for byte in path
    ]
    text = b"".join(shown)
    return path if text == path else b'"%s"' % text


def is_at_or_below(path: bytes, front: bytes) -> bool:
    return path == front or path.startswith(front + b"/")


class History:
    """A history that grows. `branches` and `tags` are the marks at which refs stand."""

    def __init__(self, chance: random.Random):
        self.chance = chance
        # the mode and content of each path, of each commit's mark
        self.files: dict[int, dict[bytes, tuple[bytes, bytes]]] = {}
        self.branches: dict[bytes, int] = {}
        self.tags: dict[bytes, int] = {}
        self.deleted: list[bytes] = []
        self.fresh: set[bytes] = set()  # the tags that the step has set
        self.count = 0

    def happens(self, percent: int) -> bool:
        """Whether it is one of so many times of a hundred. The simplest is that it isn't."""
        return self.chance.randrange(100) >= 100 - percent

    def step(self) -> Step:
        self.fresh = set()
        gone = [self.deletion()] if self.branches and self.happens(30) else []
        return Step(gone, b"".join(self.command() for _ in range(self.chance.randrange(1, 5))))

    def keep(self, marks: set[int]) -> None:
        """Goes on from these commits alone."""
        self.files = {mark: files for mark, files in self.files.items() if mark in marks}

    def deletion(self) -> bytes:
        """A ref that is no more. Later a branch may have its name as a directory."""
        refs = sorted(self.branches) + sorted(self.tags)
        ref = self.chance.choice(refs)
        if self.tags.pop(ref, None) is None:
            del self.branches[ref]
            self.deleted.append(ref)
        return ref

    def command(self) -> bytes:
        """A commit, or a ref that is set."""
        marks, kind = sorted(self.files), self.chance.randrange(100)
        if not marks or kind >= 94:
            return self.commit(self.branch_at(b"refs/heads/root%d" % self.chance.randrange(3)), [])
        if kind < 44:
            branch = self.old_branch()
            return self.commit(branch, [self.branches.get(branch) or self.chance.choice(marks)])
        if kind < 56:
            return self.commit(self.new_branch(), [self.chance.choice(marks)])
        if kind < 72:
            return self.merge(marks)
        if kind < 78:
            branch = self.old_branch()
            self.branches[branch] = self.chance.choice(marks)
            return b"reset %s\nfrom :%d\n\n" % (branch, self.branches[branch])
        return self.tag(self.chance.choice(marks))

    def branch_at(self, ref: bytes) -> bytes:
        """A ref that is free, and neither a directory of a branch nor below one: this one, or one
        beside it."""
        others = self.branches.keys() - {ref}
        above = next((other for other in sorted(others) if is_at_or_below(ref, other)), None)
        if above:
            return self.branch_at(above + b"x")
        is_above = any(is_at_or_below(other, ref) for other in others)
        return self.branch_at(ref + b"x") if is_above else ref

    def old_branch(self) -> bytes:
        branches = sorted(self.branches)
        return self.chance.choice(branches) if branches else self.branch_at(b"refs/heads/main")

    def new_branch(self) -> bytes:
        """A branch of a new name, maybe one below a branch that was deleted."""
        if self.deleted and self.happens(50):
            return self.branch_at(self.deleted.pop() + b"/below")
        return self.branch_at(self.chance.choice(TOPICS) % self.count)

    def merge(self, marks: list[int]) -> bytes:
        """A merge of two commits, or of up to five, rarely of twenty."""
        branch = self.old_branch()
        first = self.branches.get(branch) or self.chance.choice(marks)
        count = min(len(marks), self.chance.choice([1, 1, 1, 2, 3, 4, 20]))
        others = self.chance.sample(marks, count)
        return self.commit(branch, [first] + [mark for mark in others if mark != first])

    def commit(self, branch: bytes, parents: list[int]) -> bytes:
        """A commit on a branch."""
        self.count += 1
        files, lines = self.changed(self.files[parents[0]] if parents else {})
        self.files[self.count], self.branches[branch] = files, self.count
        text = [b"reset " + branch] if not parents else []
        text += [b"commit " + branch, b"mark :%d" % self.count]
        if self.happens(30):
            text.append(b"author " + WHO % (b"Zo\xc3\xab", b"zoe", 1600000000 + self.count, 1))
        when = 1700000000 + self.count // 2
        text.append(b"committer " + WHO % (b"A U Thor", b"author", when, 2))
        if self.happens(10):
            text.append(b"encoding ISO-8859-1")
        message = self.chance.choice(MESSAGES) % self.count
        text.append(b"data %d\n%s" % (len(message), message))
        words = [b"merge" if number else b"from" for number in range(len(parents))]
        text += [b"%s :%d" % pair for pair in zip(words, parents)]
        return b"\n".join(text + lines) + b"\n"

    def changed(
        self, files: dict[bytes, tuple[bytes, bytes]]
    ) -> tuple[dict[bytes, tuple[bytes, bytes]], list[bytes]]:
        """Some files changed, and the lines that change them."""
        lines, files = [], dict(files)
        for _ in range(self.chance.choice([0, 1, 1, 2, 3, 6])):
            remove = files and self.happens(35)
            lines.append(self.removed(files) if remove else self.written(files))
        return files, lines

    def removed(self, files: dict[bytes, tuple[bytes, bytes]]) -> bytes:
        """A file removed, or a directory."""
        path = self.chance.choice(sorted(files))
        if b"/" in path and self.happens(30):
            path = path.rsplit(b"/", 1)[0]
        for name in [name for name in files if is_at_or_below(name, path)]:
            del files[name]
        return b"D " + quoted(path)

    def written(self, files: dict[bytes, tuple[bytes, bytes]]) -> bytes:
        """A file that is new, or has another content or mode, maybe in place of a directory or of
        a file above it."""
        mode = self.chance.choice(MODES)
        content = b"x" * self.chance.randrange(30)
        if mode == MODULE:
            content = b"%040x" % self.chance.randrange(1, 99)
        parts = range(self.chance.choice([1, 1, 2, 3]))
        path = b"/".join(self.chance.choice(COMPONENTS) for _ in parts)
        if files and self.happens(30):
            path = self.chance.choice(sorted(files))
            if mode != MODULE and files[path][0] != MODULE:
                content = files[path][1]
        for name in list(files):
            if is_at_or_below(name, path) or is_at_or_below(path, name):
                del files[name]
        files[path] = (mode, content)
        if mode == MODULE:
            return b"M 160000 %s %s" % (content, quoted(path))
        return b"M %s inline %s\ndata %d\n%s" % (mode, quoted(path), len(content), content)

    def tag(self, mark: int) -> bytes:
        """A tag of its own or a ref below refs/tags/, new or moved. No stream of git's may have
        both of one name."""
        old = [tag for tag in sorted(self.tags) if tag not in self.fresh and self.happens(10)]
        name = old[0] if old else b"refs/tags/v%d" % (len(self.tags) + 100 * self.count)
        while name in self.fresh:
            name += b"x"
        self.fresh.add(name)
        self.tags[name] = mark
        if self.happens(40):
            return b"reset %s\nfrom :%d\n\n" % (name, mark)
        message = self.chance.choice([b"", b"tag", b"Release\n"])
        tagger = b"tagger " + WHO % (b"T", b"t", 1800000000, 0) + b"\n"
        text = (name[10:], mark, tagger, len(message), message)
        return b"tag %s\nfrom :%d\n%sdata %d\n%s\n" % text


@st.composite
def one_more(
    draw: st.DrawFn, elements: st.SearchStrategy[Element], mean: int
) -> list[Element]:
    """One element, or none once in so many times and one."""
    return [draw(elements)] if draw(st.integers(0, mean)) else []


@st.composite
def several(
    draw: st.DrawFn, elements: st.SearchStrategy[Element], most: int, mean: int
) -> list[Element]:
    """Up to so many elements, `mean` in the mean if there were no end.

    Each is drawn by itself, so that hypothesis can leave out any of them.
    """
    found: list[Element] = []
    while len(found) < most and (more := draw(one_more(elements, mean))):
        found += more
    return found


@st.composite
def many(draw: st.DrawFn, elements: st.SearchStrategy[Element], most: int) -> list[Element]:
    """Often so many elements, and at least two: hypothesis begins with the simplest, and would be
    content with one where few are tried."""
    found = draw(several(elements, most, 2 * most))
    assume(len(found) > 1)
    return found


@st.composite
def histories(draw: st.DrawFn, most: int, kind: type[History] = History) -> list[Step]:
    """The steps of a history."""
    history = kind(draw(st.randoms(use_true_random=False)))
    return draw(many(st.builds(history.step), most))
