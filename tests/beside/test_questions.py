"""Asks one `gx batch --command` many things of a store made at random, and compares the answers.

`contents` and `info` are compared with what `git cat-file --batch-command` answers over the same
objects, and `ls`, `refs`, `log`, `rev-parse` and `archive` with what that command of gx prints
alone, or with the word that it refuses. So it is with lines that end with LF and with NUL (-z), in
the usual format and in two others. Then the lines are asked one after the other, each once the
answer before has come.
"""

from __future__ import annotations

import random
import re
import subprocess

from histories import Step, histories, many
from hypothesis import given
from hypothesis import strategies as st
from places import MakePlaces, Places, Repository, Store, same
from programs import Word, counted

FORMATS = [
    None,
    b"%(objecttype)%%%(objectname)  %(objectsize) x",
    b"%(objectname) %(objecttype) %(objectsize)",
]
REFUSED = re.compile(rb"gx: revision (\d+): (\w+)\n")
ENDS = [b"^", b"~3", b"^{tree}", b"^{}", b"^2", b":"]
# what looks like a revision
ODD = [b"nope", b"", b"-r", b"a..b", b"@", b"HEAD", b"%040x" % 7, b"\xff", b"main:\xe4"]
ODD += [b"main:nope/nope"]
UNKNOWN = [b"", b"contents", b"info", b"ls", b"ls -r", b"log", b"rev-parse", b"archive", b"refs x"]
UNKNOWN += [b"flush x", b" refs", b"drop x", b"\xff\x00"]
OF_GIT = (b"contents ", b"info ")


def both(steps: list[Step], places: Places) -> tuple[Store, Repository]:
    """A store of a history, and a repository of git with the same objects."""
    origin, store = places.origin()
    for step in steps:
        origin.follow(step)
    store.follow(origin)
    git = places.repository("same.git")
    git.take(store.prints("export", store.path))
    same(sorted(git.all_objects()), store.all_objects(), "objects")
    return store, git


class Lines:
    """Lines to ask of a history."""

    def __init__(self, git: Repository, chance: random.Random):
        self.chance = chance
        self.refs = sorted(git.named())
        self.names = [row.split()[0] for row in git.all_objects()]
        commits = git.git("rev-list", "--all").split()[:20]
        self.paths = [
            commit + b":" + row.split(b"\t", 1)[1]
            for commit in commits
            for row in git.git("ls-tree", "-r", "-t", "-z", commit).split(b"\0")[:-1]
        ]

    def revision(self) -> bytes:
        """A revision, or what looks like one."""
        kind = self.chance.randrange(100)
        if kind < 30:
            return self.chance.choice(self.refs)
        if kind < 45:
            return self.chance.choice(self.names)[: self.chance.choice([40, 40, 12, 4])]
        if kind < 60:
            return self.chance.choice(self.refs) + self.chance.choice(ENDS)
        if kind < 85 and self.paths:
            return self.chance.choice(self.paths)
        return self.chance.choice(ODD)

    def range(self) -> bytes:
        """A range word, or what looks like one."""
        first, second = self.chance.choice(self.refs), self.chance.choice(self.refs)
        shapes = [first, b"^" + first, first + b".." + second, first + b"..." + second]
        shapes += [first + b"^@", first + b"^!", first + b"^-", self.revision()]
        return self.chance.choice(shapes)

    def ranges(self) -> bytes:
        return b" ".join(self.range() for _ in range(self.chance.choice([1, 1, 2, 3])))

    def revisions(self) -> bytes:
        return b" ".join(self.revision() for _ in range(self.chance.choice([1, 1, 2, 3])))

    def one(self) -> bytes:
        """A line, of which every other one asks for an object."""
        command = self.chance.choice(
            [b"contents", b"info"] * 4
            + [b"ls", b"ls -r", b"log", b"rev-parse", b"archive", b"refs", b"flush", b""]
        )
        if command in (b"refs", b"flush"):
            return command
        if not command:
            return self.chance.choice(UNKNOWN)
        several = {b"log": self.ranges, b"rev-parse": self.revisions}
        return b"%s %s" % (command, several.get(command, self.revision)())


class Asked:
    """What is wanted for each line."""

    def __init__(self, store: Store, git: Repository):
        self.store, self.git = store, git

    def wanted(self, lines: list[bytes], form: bytes | None) -> list[bytes | None]:
        """The answers to lines, in a format."""
        answers = iter(self.of_git([line for line in lines if line.startswith(OF_GIT)], form))
        return [next(answers) if line.startswith(OF_GIT) else self.of_gx(line) for line in lines]

    def of_git(self, lines: list[bytes], form: bytes | None) -> list[bytes]:
        """What git answers, cut behind each answer by one more question, which is answered in a
        line of its own."""
        mark = b"no such thing"
        word = b"--batch-command" if form is None else b"--batch-command=" + form
        asked = b"".join(line + b"\0info " + mark + b"\0" for line in lines)
        told = self.git.git("cat-file", word, "-z", given=asked)
        return told.split(mark + b" missing\n")[:-1]

    def of_gx(self, line: bytes) -> bytes | None:
        """What the command of gx prints alone, as a batch answers it."""
        command, space, rest = line.partition(b" ")
        if line == b"flush":
            return b""
        several = rest.split(b" ")
        words = {b"refs": [], b"log": several, b"rev-parse": several}.get(command, [rest])
        is_known = command in (b"refs", b"ls", b"archive", b"log", b"rev-parse")
        if not is_known or bool(space) == (command == b"refs") or line == b"ls -r":
            return line + b" unknown\n"
        options = []
        if command == b"ls" and rest.startswith(b"-r "):
            options, words = [b"-r"], [rest[3:]]
        return self.printed(command, options, words)

    def printed(self, command: bytes, options: list[bytes], words: list[bytes]) -> bytes | None:
        """What is printed, or the first word that is refused. One that isn't UTF-8 can't be named
        alone: its answer isn't known."""
        if not all(is_text(word) for word in words):
            return None
        done = self.store.gx(command, *options, "--", self.store.path, *words)
        if done.status == 0:
            return b"%s %d\n%s\n" % (command, len(done.out), done.out)
        refused = REFUSED.fullmatch(done.err)
        assert refused, done.err
        kind = b"ambiguous" if refused[2] == b"Ambiguous" else b"missing"
        return b"%s %s\n" % (words[int(refused[1]) - 1], kind)


def is_text(word: bytes) -> bool:
    try:
        word.decode()
    except UnicodeDecodeError:
        return False
    return b"\0" not in word


def batch(store: Store, form: bytes | None, nul: bool) -> list[Word]:
    options = [*(["-z"] if nul else []), *([b"--format=" + form] if form is not None else [])]
    return ["batch", "--command", *options, store.path]


def ask(
    store: Store, lines: list[bytes], wanted: list[bytes | None], form: bytes | None, nul: bool
) -> None:
    """All the lines at once. An answer that isn't known is looked for up to the next that is."""
    end = b"\0" if nul else b"\n"
    told = store.prints(*batch(store, form, nul), given=b"".join(line + end for line in lines))
    what = f"gx batch --command, format {form}{', -z' if nul else ''}: "
    at = 0
    for line, answer in zip(lines, wanted):
        if answer is None:
            answer = first_answer(told[at:])
        same(told[at : at + len(answer)], answer, f"{what}{line!r}: answers")
        at += len(answer)
    same(told[at:], b"", f"{what}what is left of the answers")
    counted["lines asked"] += len(lines)


def first_answer(told: bytes) -> bytes:
    """An answer by its own line: with its bytes where that ends with a length."""
    line = told[: told.index(b"\n") + 1]
    length = re.fullmatch(rb"(ls|log|rev-parse|archive) (\d+)\n", line)
    return told[: len(line) + int(length[2]) + 1] if length else line


def ask_in_turn(store: Store, lines: list[bytes], wanted: list[bytes | None]) -> None:
    """One line after the other, each once the answer before has come."""
    counted["programs run"] += 1
    words = [store.gx.path, *batch(store, None, False)]
    pipes = {"stdin": subprocess.PIPE, "stdout": subprocess.PIPE}
    with subprocess.Popen(words, bufsize=0, env=store.gx.environment, **pipes) as child:
        for line, answer in zip(lines, wanted):
            child.stdin.write(line + b"\n")
            told = b""
            while len(told) < len(answer):
                more = child.stdout.read(len(answer) - len(told))
                assert more, f"gx batch --command: {line!r}: the answer ends early"
                told += more
            same(told, answer, f"gx batch --command: {line!r}: answers in turn")
        child.stdin.close()
        same(child.stdout.read(), b"", "gx batch --command: what is left in turn")
    same(child.returncode, 0, "gx batch --command: status")
    counted["lines asked"] += len(lines)


@given(steps=histories(15), chance=st.randoms(use_true_random=False), data=st.data())
def test_batch(
    steps: list[Step], chance: random.Random, data: st.DataObject, new_places: MakePlaces
) -> None:
    with new_places() as places:
        store, git = both(steps, places)
        if not git.refs():
            return
        lines = data.draw(many(st.builds(Lines(git, chance).one), 60), label="lines")
        plain = [line for line in lines if b"\n" not in line and b"\r" not in line]
        whole = [line for line in lines if b"\0" not in line]
        asked = Asked(store, git)
        for form in FORMATS:
            ask(store, plain, asked.wanted(plain, form), form, False)
            ask(store, whole, asked.wanted(whole, form), form, True)
        some = [line for line in plain if is_text(line)]
        ask_in_turn(store, some, asked.wanted(some, None))
