"""Asks `gx merge-base` of histories made at random, and compares what it finds with git.

git orders several merge bases by the dates of commits, and a store knows none of these without its
commits: so they are compared as sets. The one that is printed alone has to be the first of all.
"""

from __future__ import annotations

import random
from typing import NamedTuple

from histories import History, Step, histories
from hypothesis import given
from hypothesis import strategies as st
from places import MakePlaces, Places, Repository, Store, same
from programs import Done, counted, run_program

ENDS = [b"", b"", b"", b"^0", b"^", b"~2", b"^2"]
# a first word, and others behind it
Asked = tuple[bytes, list[bytes]]


class Woven(History):
    """A history of which most commits are merges, of few files."""

    def command(self) -> bytes:
        marks = sorted(self.files)
        if len(marks) > 1 and self.happens(60):
            return self.merge(marks)
        return super().command()


class Sides(NamedTuple):
    """A repository of git, and stores of the same history, of version 2 and growing."""

    git: Repository
    plain: Store
    growing: Store

    def told(self, words: list[bytes]) -> Done:
        """What gx does, which is the same of both stores."""
        answers = [side.gx("merge-base", side.path, *words) for side in self[1:]]
        same(answers[1], answers[0], f"answers to {words}")
        return answers[0]

    def wanted(self, words: list[bytes]) -> Done:
        command = ["git", "-C", self.git.path, "merge-base", *words]
        return run_program(command, env=self.git.environment)


def sides(steps: list[Step], places: Places) -> Sides:
    origin, plain = places.origin()
    for step in steps:
        origin.follow(step)
    plain.follow(origin)
    growing = plain.path.with_suffix(".growing")
    growing.write_bytes(plain.path.read_bytes())
    plain.gx.prints("grow", growing)
    return Sides(origin, plain, Store(growing, plain.gx))


def asked(git: Repository, chance: random.Random) -> Asked:
    """Revisions that give commits, two to five of them."""
    names = sorted(git.named()) + git.git("rev-list", "--all").split()
    found: list[bytes] = []
    while len(found) < chance.choice([2, 2, 2, 3, 5]):
        word = chance.choice(names) + chance.choice(ENDS)
        words = ["git", "-C", git.path, "rev-parse", "-q", "--verify", word + b"^{commit}"]
        if run_program(words, env=git.environment).status == 0:
            found.append(word)
    return found[0], found[1:]


def compare_bases(both: Sides, words: list[bytes], form: list[bytes]) -> None:
    """All merge bases, and the one that is printed alone."""
    wanted, found = both.wanted([b"--all", *form, *words]), both.told([b"--all", *form, *words])
    assert found.err == b""
    same(sorted(found.out.split()), sorted(wanted.out.split()), f"merge bases {form} of {words}")
    same(found.status, 0 if wanted.out else 3, f"status of {words}")
    first = both.told([*form, *words])
    same(first.out, b"".join(found.out.splitlines(True)[:1]), f"first of {words}")
    same(first.status, found.status, f"status of the first of {words}")
    kinds = ["no merge base", "one merge base"]
    counted[kinds[min(len(found.out.split()), 2)] if len(found.out.split()) < 2 else "several"] += 1


def compare_ancestry(both: Sides, words: list[bytes]) -> None:
    wanted, found = both.wanted([b"--is-ancestor", *words]), both.told([b"--is-ancestor", *words])
    same((found.out, found.err), (b"", b""), f"what is printed of {words}")
    same(found.status, {0: 0, 1: 3}[wanted.status], f"whether {words} are so")


@given(steps=histories(6, Woven), chance=st.randoms(use_true_random=False))
def test_random_merge_bases(
    steps: list[Step], chance: random.Random, new_places: MakePlaces
) -> None:
    with new_places() as places:
        both = sides(steps, places)
        for _ in range(12):
            first, others = asked(both.git, chance)
            compare_bases(both, [first, *others], [])
            compare_bases(both, [first, *others], [b"--octopus"])
            compare_ancestry(both, [first, others[0]])


def test_refusals(new_places: MakePlaces) -> None:
    """A word that gives no commit is refused by its number, and lines that git refuses are refused."""
    stream = b"commit refs/heads/main\nmark :1\ncommitter A <a@x> 1 +0000\ndata 0\n"
    stream += b"M 100644 inline a\ndata 1\nx\n"
    with new_places() as places:
        both = sides([Step([], stream)], places)
        for words, line in [
            ([b"main", b"nope"], b"gx: revision 2: UnknownRef\n"),
            ([b"main:a", b"main"], b"gx: revision 1: WrongKind\n"),
            ([b"--is-ancestor", b"main", b"main^"], b"gx: revision 2: NoParent\n"),
            ([b"--all", b"main", b"main", b"a..b"], b"gx: revision 3: BadRevision\n"),
        ]:
            same(both.told(words), Done(1, b"", line), f"refusal of {words}")
        for words in [
            [b"main"],
            [b"--is-ancestor", b"main"],
            [b"--is-ancestor", b"main", b"main", b"main"],
            [b"--is-ancestor", b"--all", b"main", b"main"],
            [b"--is-ancestor", b"--octopus", b"main", b"main"],
        ]:
            found = both.told(words)
            same((found.status, found.out), (2, b""), f"refusal of {words}")
            assert found.err, words
