"""Random streams for a store that holds something already: their texts name what it has, in each way
that a commit can be named, and their files are some that it has, and others.
"""

from __future__ import annotations

import random
import shutil
from collections.abc import Callable
from dataclasses import dataclass, field
from pathlib import Path

from programs import Done, Program, Word

PATHS = b"a b d/a d/b d/e/a d/e/f/g d- d.c e/a e/b/c z".split() + [b"x y"]
NAMES = [b"refs/heads/" + name for name in b"m n o/p q r s/t".split()]
# what stands for a blob or a commit of the store in an import begins with the last one
NONCE = b"gx: stands for: "
BODIES = [b"one\n", b"two\n", b"three\n", b"a\n", b"b\n", b"", b"x" * 200, NONCE[:9]] * 6 + [NONCE]
SUFFIXES = [b"^", b"^2", b"^{commit}", b"^{}", b"~1^2", b"^0~1", b"^{tree}"]
UNKNOWN = [b"nothing", b"1" * 40, b"refs/heads/none"]
ZEROS = b"0" * 40
NOT_SMALL = Done(1, b"", b"gx: no small repository\n")
Git = Callable[..., bytes]


def block(body: bytes) -> bytes:
    return b"data %d\n%s\n" % (len(body), body)


def quoted(path: bytes) -> bytes:
    return b'"%s"' % path if b" " in path else path


@dataclass
class Known:
    """What a store holds: its refs, its commits, and the blobs and paths of what its refs reach."""

    refs: dict[bytes, bytes] = field(default_factory=dict)
    commits: list[bytes] = field(default_factory=list)
    blobs: list[bytes] = field(default_factory=list)
    paths: list[bytes] = field(default_factory=list)

    @staticmethod
    def of(gx: Program, store: Word) -> Known:
        lines = gx.prints("refs", store).splitlines()
        known = Known({name: digits for digits, name in (line.split(b" ", 1) for line in lines)})
        if known.refs:
            known.commits = sorted(gx.prints("log", "--all", store).split())
        for name in known.refs:
            for line in gx.prints("ls", "-r", store, name).splitlines():
                front, _, path = line.partition(b"\t")
                _, kind, digits = front.split()
                known.blobs += [digits] if kind == b"blob" else []
                known.paths += [path] if kind == b"blob" else []
        return known

    def heads(self) -> list[bytes]:
        return [name for name in self.refs if name.startswith(b"refs/heads/")]


class StreamMaker:
    """A stream for a store of which this is known."""

    def __init__(self, randoms: random.Random, known: Known):
        self.random, self.known = randoms, known
        self.out: list[bytes] = []
        self.marks: list[int] = []
        self.blob_marks: list[int] = []
        self.branches: list[bytes] = []
        self.last_mark = 0

    def drawn(self, *ways: tuple[float, Callable[[], None]]) -> None:
        """Does one of these, each as often as it says; nothing in what is left of one."""
        at = self.random.random()
        for share, way in ways:
            if at < share:
                way()
                return
            at -= share

    def mark(self) -> int:
        self.last_mark += 1
        return self.last_mark

    def body(self) -> bytes:
        is_new = self.random.random() < 0.4
        return b"%d\n" % self.random.randrange(10**6) if is_new else self.random.choice(BODIES)

    # ---- names of commits

    def named_by_ref(self) -> bytes:
        name = self.random.choice(list(self.known.refs))
        if self.random.random() < 0.3:
            name = name.split(b"/", 2)[-1]
        suffixes = [b"", b"^0", b"~%d" % self.random.randrange(3), self.random.choice(SUFFIXES)]
        return name + self.random.choice(suffixes)

    def commit_ish(self, branch: bytes | None = None) -> bytes | None:
        """A name of a commit, or of none: not that of the branch itself."""
        choose, known = self.random.choice, self.known
        kinds = [*"mdrrbu"] + ["s"] * (self.random.random() < 0.2)
        for kind in self.random.sample(kinds, len(kinds)):
            name = None
            if kind == "m" and self.marks:
                name = b":%d" % choose(self.marks)
            elif kind == "d" and known.commits:
                name = choose(known.commits)
            elif kind == "r" and known.refs:
                name = self.named_by_ref()
            elif kind == "b" and self.branches:
                name = choose(self.branches)
            elif kind == "s" and known.commits:
                name = choose(known.commits)[: choose([4, 7, 12, 39])]
            elif kind == "u" and self.random.random() < 0.05:
                name = choose(UNKNOWN)
            if name not in (None, branch):
                return name
        return None

    def branch(self) -> bytes:
        heads = self.known.heads()
        if heads and self.random.random() < 0.65:
            return self.random.choice(heads)
        if self.known.refs and self.random.random() < 0.05:
            return self.random.choice(list(self.known.refs))
        return self.random.choice(NAMES)

    # ---- commands

    def blob(self) -> None:
        number = self.mark()
        self.blob_marks.append(number)
        self.out.append(b"blob\nmark :%d\n%s" % (number, block(self.body())))

    def path(self) -> bytes:
        is_known = self.known.paths and self.random.random() < 0.3
        return self.random.choice(self.known.paths if is_known else PATHS)

    def change(self) -> bytes:
        choose, at, path = self.random.choice, self.random.random(), quoted(self.path())
        mode = choose([b"100644", b"100644", b"100755", b"120000"])
        if at < 0.15 and self.blob_marks:
            return b"M %s :%d %s\n" % (mode, choose(self.blob_marks), path)
        if at < 0.3 and self.known.blobs:
            return b"M %s %s %s\n" % (mode, choose(self.known.blobs), path)
        if at < 0.75:
            return b"M %s inline %s\n%s" % (mode, path, block(self.body()))
        if at < 0.78:
            return b"M 160000 %s %s\n" % (b"12" * 20, path)
        if at < 0.88:
            return b"D %s\n" % path
        if at < 0.9:
            return b"deleteall\n"
        return b"%s %s %s\n" % (choose([b"C", b"R"]), quoted(self.path()), path)

    def first_parent(self, branch: bytes) -> bytes | None:
        """What a commit goes on from: nothing where that is the branch itself."""
        at, held = self.random.random(), self.known.refs.get(branch)
        if branch in self.branches and at < 0.7:
            return None
        if held and at < 0.75:
            return self.random.choice([branch + b"^0", branch + b"^0", held, held + b"^0"])
        return self.commit_ish(branch) if at < 0.95 else None

    def commit(self) -> None:
        choose, branch = self.random.choice, self.branch()
        lines = [b"commit %s\n" % branch]
        is_marked = self.random.random() < 0.8
        if is_marked:
            lines.append(b"mark :%d\n" % self.mark())
        if self.random.random() < 0.2:
            lines.append(b"author A <a@x> %d +0100\n" % self.random.randrange(100))
        lines.append(b"committer C <c@x> %d +0000\n" % self.random.randrange(10**4))
        lines.append(block(choose([b"m\n", b"", NONCE[:10], b"long\n\nmore\n"])))
        parents = [(b"from", self.first_parent(branch))]
        parents += [(b"merge", self.commit_ish(branch)) for _ in range(choose([0, 0, 0, 0, 1, 2]))]
        lines += [b"%s %s\n" % (word, name) for word, name in parents if name]
        lines += [self.change() for _ in range(choose([0, 1, 1, 2, 3, 5]))]
        self.out.append(b"".join(lines) + b"\n")
        self.marks += [self.last_mark] if is_marked else []
        self.branches.append(branch)

    def reset(self) -> None:
        branch = self.branch()
        start = self.commit_ish(branch) if self.random.random() < 0.9 else None
        self.out.append(b"reset %s\n%s\n" % (branch, b"from %s\n" % start if start else b""))
        self.branches.append(branch)

    def tag(self) -> None:
        start, name = self.commit_ish(), self.random.choice([b"v1", b"v2", b"t/x", b"v3"])
        if start:
            time = self.random.randrange(99)
            text = b"tag %s\nfrom %s\ntagger T <t@x> %d +0000\n" % (name, start, time)
            self.out.append(text + block(b"t\n"))

    def line(self, text: bytes) -> Callable[[], None]:
        return lambda: self.out.append(text)

    def make(self, most: int) -> bytes:
        if self.random.random() < 0.5:
            self.out.append(b"feature force\n")
        for _ in range(self.random.randrange(1, most)):
            self.drawn(
                (0.2, self.blob),
                (0.55, self.commit),
                (0.1, self.reset),
                (0.08, self.tag),
                (0.03, self.line(b"progress at %d\n" % self.last_mark)),
                (0.025, self.line(b"checkpoint\n\n")),
                (0.005, self.line(b"nonsense\n")),
            )
        return b"".join(self.out)


def refs_set(stream: bytes) -> list[bytes]:
    """The refs that commands of a stream may set."""
    refs = set()
    for line in stream.splitlines():
        word, _, name = line.partition(b" ")
        if word in (b"commit", b"reset"):
            refs.add(name)
        elif word == b"tag":
            refs.add(b"refs/tags/" + name)
    return sorted(refs)


def push_lines(randoms: random.Random, known: Known, stream: bytes) -> list[bytes]:
    """Lines of a push, which hold most times: of the refs that a stream may set, and of others."""
    choose, at = randoms.choice, randoms.random
    signs = choose([b"+", b"+", b"+", b"++++-", b"+++++~", b"~+-"])
    others = [*known.refs, *NAMES, b"refs/tags/v1", b"bad..name", b"HEAD"]
    refs = refs_set(stream) + randoms.sample(others, choose([0, 0, 0, 1, 2]))
    lines = []
    for ref in dict.fromkeys(refs):
        held = known.refs.get(ref, ZEROS)
        old = held if at() < 0.99 else choose([ZEROS, *known.commits[:1], b"1" * 39, held.upper()])
        sign = bytes([choose(signs)]).replace(b"~", b"")
        lines += [b"%s%s %s" % (sign, old, ref)] * (at() < 0.98)
    randoms.shuffle(lines)
    if at() < 0.03:
        lines.insert(randoms.randrange(len(lines) + 1), choose([b"", b"x", ZEROS, b"-" + ZEROS]))
    return lines + lines[:1] * (at() < 0.03)


def made_large(gx: Program, store: Word) -> None:
    """Makes a growing store that no stream of here outweighs."""
    gx.prints("init", "--growing", store)
    gx.prints("import", store, stdin=b"blob\n" + block(b"x" * 50_000))


def made_base(gx: Program, store: Word, randoms: random.Random) -> Known:
    """Makes a growing store of several segments."""
    made_large(gx, store)
    known, left = Known(), randoms.choice([3, 6, 10])
    while left > 0:
        stream = StreamMaker(randoms, known).make(randoms.choice([6, 12, 25]))
        if gx("import", store, stdin=stream).status == 0:
            known = Known.of(gx, store)
            left -= bool(known.commits)
    return known


class Ways:
    """A store, and an import into copies of it in each way: one or a push, by its options."""

    def __init__(self, gx: Program, folder: Path):
        self.gx, self.base = gx, folder / "base"
        self.copy, self.stream = folder / "copy", folder / "stream"

    def imported(self, way: list[str], options: list[str], is_file: bool) -> tuple[Done, bytes]:
        """What an import gives, and the text that FILE has then. The stream is read of a file, or
        comes through a pipe."""
        shutil.copy(self.base, self.copy)
        words = [*way, "import", "--report", "--explain", *options, self.copy]
        with self.stream.open("rb") as file:
            done = self.gx(*words, stdin=file if is_file else file.read())
        return done, self.copy.read_bytes()

    def compare(self, stream: bytes, options: list[str]) -> str:
        """The same comes of both ways. Answers by which one it comes where both are free, or that the
        stream is refused."""
        self.stream.write_bytes(stream)
        before = self.base.read_bytes()
        whole = self.imported(["--way=whole"], options, True)
        assert self.imported([], options, False) == whole
        assert self.imported([], options, True) == whole
        small = self.imported(["--way=small"], options, True)
        if small[0] == NOT_SMALL:
            assert small[1] == before
        else:
            assert small == whole
            assert whole[0].status == 0
        if whole[0].status:
            return "refused"
        self.copy.write_bytes(whole[1])
        self.gx.prints("verify", self.copy)
        return "whole" if small[0] == NOT_SMALL else "small"


# ---- streams of git


class History:
    """A repository of git that grows."""

    def __init__(self, git: Git, folder: Path, randoms: random.Random):
        self.run, self.folder, self.random, self.time = git, folder, randoms, 1000
        git("init", "-q", "--bare", folder)

    def git(self, *words: str | bytes, stdin: bytes = b"") -> bytes:
        return self.run(*words, cwd=self.folder, stdin=stdin)

    def refs(self) -> dict[bytes, bytes]:
        lines = self.git("for-each-ref", "--format=%(objectname) %(refname)").splitlines()
        return {name: digits for digits, name in (line.split(b" ", 1) for line in lines)}

    def heads(self) -> dict[bytes, bytes]:
        return {name: it for name, it in self.refs().items() if name.startswith(b"refs/heads/")}

    def holds(self, commit: bytes, other: bytes) -> bool:
        return self.git("merge-base", commit, other).strip() == other

    def change(self) -> bytes:
        path = self.random.choice(b"a b d/a d/b d/e/c lib/x/y/z README src/m.c src/n.c".split())
        if self.random.random() < 0.15:
            return b"D %s\n" % path
        body = b"line %d\n" % self.random.randrange(8) * self.random.randrange(1, 9)
        mode = self.random.choice([b"100644", b"100755"])
        return b"M %s inline %s\ndata %d\n%s\n" % (mode, path, len(body), body)

    def commit(self, branch: bytes, parents: list[bytes], changes: int) -> None:
        self.time += 10
        head = b"commit %s\ncommitter C <c@x> %d +0000\ndata 2\nm\n\n" % (branch, self.time)
        words = [b"from", *[b"merge"] * (len(parents) - 1)]
        lines = [b"%s %s\n" % link for link in zip(words, parents)]
        lines += [self.change() for _ in range(changes)]
        self.git("fast-import", "--quiet", "--force", stdin=head + b"".join(lines) + b"\n")

    def some(self, most: int) -> bytes:
        return self.random.choice(self.git("rev-list", "--all").split()[:most])

    def step(self) -> None:
        """A commit on a branch, a branch from an older commit, a merge, a branch that moves to
        another's commit, or a tag of either kind."""
        at, heads = self.random.random(), self.heads()
        if not heads:
            return self.commit(b"refs/heads/main", [], 5)
        first, second = (self.random.choice(sorted(heads)) for _ in range(2))
        if at < 0.55:
            return self.commit(first, [heads[first]], self.random.choice([1, 1, 2, 4]))
        if at < 0.67:
            return self.commit(b"refs/heads/t%d" % self.random.randrange(9**9), [self.some(30)], 2)
        if at < 0.85:
            if not self.holds(heads[first], heads[second]):
                self.commit(first, [heads[first], heads[second]], 1)
        elif at < 0.92:
            if self.holds(heads[second], heads[first]):
                self.git("update-ref", first, heads[second])
        else:
            name = f"v{self.random.randrange(9**9)}"
            words = ["-m", "t"] if self.random.random() < 0.6 else []
            self.git("tag", *words, name, self.some(10))
        return None


def changes_of(history: History, told: dict[bytes, bytes]) -> bytes:
    """What is new in a repository, as a stream of git's."""
    refs = history.refs()
    changed = [name for name in refs if told.get(name) != refs[name]]
    if not changed:
        return b""
    options = ["--reencode=no", "--reference-excluded-parents", "--signed-tags=verbatim"]
    excluded = [b"^" + digits for digits in sorted(set(told.values()))]
    words = ["fast-export", "--use-done-feature", *options, "--tag-of-filtered-object=drop"]
    return history.git(*words, *changed, *excluded)
