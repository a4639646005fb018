"""Compares `gx log` with git.

A stream goes into git and into a store. Range words, on the command line and on standard input,
with `--all` and without, have to list the commits that `git rev-list` lists; -n has to keep the
first of them, and --reverse to turn what is kept. In each format the commits, in the order in which
gx lists them, have to be printed as `git log` prints them, byte for byte. git is told to re-encode
nothing in the formats where it can be, and to leave TABs as they are.

A history made at random has messages with blank lines, with white space and TABs and CRs at all
places, with none of all that, and with no text at all, and identities with white space. Where a
commit has an encoding, its texts are of ASCII: git re-encodes others.

    pytest tests/beside/test_logs.py --stream FILE     of a stream
    pytest tests/beside/test_logs.py --long            of many histories, and of this repository's
"""

from __future__ import annotations

import random
import re

from histories import History, Step, histories
from hypothesis import given
from hypothesis import strategies as st
from places import MakePlaces, Places, Repository, Store, same
from programs import Word

ORDERED = ["--no-walk=unsorted", "--no-expand-tabs", "--no-color", "--no-decorate", "--stdin"]
FORMATS = {
    "oneline": ["--encoding=none", "--format=oneline", "--no-abbrev-commit"],
    "raw": ["--encoding=none", "--format=raw"],
    "subject": ["--format=%s"],
    "author": ["--format=%H %an <%ae>"],
    "dates": ["--format=%H %at %ct"],
}
PIECES = [b"a", b"word", b" ", b"  ", b"\t", b"\n", b"\n\n", b"\n \n", b"\r\n", b"\r"]
PIECES += [b"\x0b", b"\x0c", b"\x7f"]
WIDE = [b"\xc3\xa4", b"\xe4", b"\xff"]
SHAPES = [b"%s", b"%s", b"^%s", b"%s..%s", b"%s...%s", b"%s^@", b"%s^!"]


class OddHistory(History):
    """A history whose commits say odd things."""

    def text(self, most: int, pieces: list[bytes]) -> bytes:
        return b"".join(self.chance.choice(pieces) for _ in range(self.chance.randrange(most)))

    def commit(self, branch: bytes, parents: list[int]) -> bytes:
        text = super().commit(branch, parents)
        pieces = PIECES if b"\nencoding " in text else PIECES + WIDE
        plain = [piece for piece in pieces if b"\n" not in piece]
        name = b"N" + self.text(4, plain)
        people = rb"(author|committer) [^<\n]*<"
        text = re.sub(people, lambda found: found[1] + b" " + name + b" <", text)
        front, behind = text.split(b"\ndata ", 1)
        size, behind = behind.split(b"\n", 1)
        message = self.text(12, pieces)
        return b"%s\ndata %d\n%s%s" % (front, len(message), message, behind[int(size) :])


def listed(store: Store, *options: Word, words: list[bytes], lines: list[bytes]) -> list[bytes]:
    """The commits that gx lists of words on its command line and in its lines."""
    return store.prints("log", *options, store.path, *words, given=b"\n".join(lines)).split()


def words_of(chance: random.Random, commits: list[bytes]) -> list[bytes]:
    """Some range words that list what they name."""
    shapes = [chance.choice(SHAPES) for _ in range(chance.randrange(1, 6))]
    return [
        shape % tuple(chance.choice(commits) for _ in range(shape.count(b"%s"))) for shape in shapes
    ]


def compare_all(repository: Repository, store: Store) -> None:
    """All commits are listed, each once."""
    every = set(repository.git("rev-list", "--all").split())
    for options in (["--all"], ["--all", "--stdin"]):
        found = listed(store, *options, words=[], lines=[])
        what = f"gx log {options}: "
        same(set(found), every, what + "commits")
        same(len(found), len(every), what + "number of commits")
    same(listed(store, "--stdin", words=[], lines=[]), [], "gx log --stdin: commits of no line")


def compare_list(chance: random.Random, repository: Repository, store: Store) -> None:
    """Which commits are listed of some words, in which order, and how many."""
    words = words_of(chance, sorted(repository.commits()[0]))
    place = chance.randrange(len(words) + 1)
    front = ["--all"] if chance.randrange(10) > 6 else []
    told = repository.git("rev-list", *front, "--stdin", given=b"\n".join(words))
    found = listed(store, *front, "--stdin", words=words[:place], lines=words[place:])
    what = f"gx log {' '.join(front)} {b' '.join(words).decode()}: "
    same(set(found), set(told.split()), f"{what}commits, from word {place + 1} on as lines")
    same(listed(store, *front, words=words, lines=[]), found, f"{what}commits, without lines")
    count = chance.randrange(4)
    few = [*front, "--max-count", str(count)]
    same(listed(store, *few, words=words, lines=[]), found[:count], f"{what}{count} commits")
    turned = listed(store, *few, "--reverse", words=words, lines=[])
    same(turned, found[:count][::-1], f"{what}{count} commits, turned")


def compare_formats(repository: Repository, store: Store) -> None:
    for turn in ([], ["--reverse"]):
        names = store.prints("log", "--all", *turn, store.path)
        for name, words in FORMATS.items():
            options = ["--all", f"--format={name}", *turn]
            found = store.prints("log", *options, store.path)
            wanted = repository.git("log", *ORDERED, *words, given=names)
            same(found, wanted, f"gx log {' '.join(options)}")


def compare(repository: Repository, store: Store, chance: random.Random) -> None:
    compare_all(repository, store)
    for _ in range(5):
        compare_list(chance, repository, store)
    compare_formats(repository, store)


@given(steps=histories(8, OddHistory), chance=st.randoms(use_true_random=False))
def test_histories(steps: list[Step], chance: random.Random, new_places: MakePlaces) -> None:
    with new_places() as places:
        repository, store = places.origin()
        for step in steps:
            repository.follow(step)
        if repository.refs():
            store.follow(repository)
            compare(repository, store, chance)


def test_stream(stream: bytes, places: Places, randoms: random.Random) -> None:
    repository, store = places.origin()
    repository.take(stream, "--force")
    store.follow(repository)
    compare(repository, store, randoms)
