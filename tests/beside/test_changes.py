"""Compares exports of changes with git.

A stream goes into git and into a store, and the store goes out by `gx export --changes`, with and
without `done`. The text is read here, line by line: each commit has to go out behind the blobs that
it is the first to need, on the first branch that reaches it, and its `D` and `M` lines have to be
what `git diff-tree -r` tells between its tree and that of its first parent, in order and as git
prints paths. Then git reads the text, and so does gx: refs, and the name, kind and size of each
object have to be the same everywhere, commits in their order, and the same text has to go out
again.

A history made at random deletes and moves refs, too. After each step the whole store goes out, and
what is new goes out by range words into a repository of git and a store that hold the steps before.
So do some refs alone. Where a ref has a commit's digits for its name, and that commit stays out, it
must not be taken for the ref.

    pytest tests/beside/test_changes.py --stream FILE     of a stream
    pytest tests/beside/test_changes.py --long            of many, and of this repository's history
"""

from __future__ import annotations

import random
from collections.abc import Iterable

import pytest
from changes_check import check_paths, check_text
from histories import Step, histories
from hypothesis import given, settings
from hypothesis import strategies as st
from places import MakePlaces, Places, Repository, Store, same

BASE = b"""commit refs/heads/main
committer A <a@x> 1 +0000
data 1
p
"""
SINCE = b"""commit refs/heads/next
committer A <a@x> 2 +0000
data 1
q
from refs/heads/main^0
reset %s
from refs/heads/next
reset refs/last
from refs/heads/next
"""


def whole(origin: Repository, store: Store, places: Places, what: str) -> None:
    """The whole store goes out, with and without its end, into git and into a new store."""
    refs, objects = origin.refs(), origin.objects()
    text = store.changes()
    inner = store.changes("--no-done")
    same(text, b"feature done\n" + inner + b"done\n", f"{what}: the text and the one without done")
    copy, again = places.repository("copy.git"), places.store("copy.gx")
    marks = copy.take(text, "--done")
    again.take(inner)
    order = check_text(text, copy, marks, what)
    check_paths(text, origin.export(), what)
    same(copy.refs(), refs, f"{what}: refs of git")
    same(copy.all_objects(), objects, f"{what}: objects of git")
    same(again.refs(), refs, f"{what}: refs of the store")
    same(again.all_objects(), objects, f"{what}: objects of the store")
    same(order, store.commits(set(order)), f"{what}: the order of the commits")
    same(again.commits(), order, f"{what}: the order of the commits in the store")
    same(again.changes() == text, True, f"{what}: the text that goes out again")
    again.drop_file()
    again = places.store("copy.gx")
    again.take(text, "--done")
    same(again.refs(), refs, f"{what}: refs of the store, with done")
    same(again.all_objects(), objects, f"{what}: objects of the store, with done")
    copy.drop_file()
    again.drop_file()


class Follower:
    """A repository of git and a store that are brought up to date by ranges."""

    def __init__(self, places: Places, chance: random.Random):
        self.repository = places.repository("follower.git")
        self.store = places.store("follower.gx")
        self.chance = chance
        self.told: dict[bytes, bytes] = {}

    def some_of(self, names: Iterable[bytes]) -> list[bytes]:
        return [name for name in sorted(set(names)) if self.chance.randrange(2)]

    def words(self, refs: dict[bytes, bytes]) -> list[bytes]:
        """What is new: of a ref that moved by `OLD..NEW` or by two words, and without all that was
        told before."""
        known = sorted(set(self.told.values()))
        words = [b"^" + name for name in known]
        for ref in refs:
            old = self.told.get(ref)
            dots = old and self.chance.randrange(2)
            words.append(old + b".." + ref if dots else ref)
        return words

    def forget(self, refs: dict[bytes, bytes]) -> None:
        """Refs that are no more go first."""
        gone = sorted(set(self.told) - set(refs))
        self.repository.drop(gone)
        self.store.drop(gone)
        self.told = {ref: self.told[ref] for ref in self.told if ref in refs}

    def bring(self, store: Store, refs: dict[bytes, bytes], what: str) -> None:
        """All that is new."""
        text = store.changes("--", *self.words(refs))
        marks = self.repository.take(text, "--done", "--force")
        self.store.take(text, "--done", "--force")
        check_text(text, self.repository, marks, f"{what}, what is new")
        self.told = refs

    def bring_part(
        self, origin: Repository, store: Store, refs: dict[bytes, bytes], what: str
    ) -> None:
        """Some refs alone, without some of what was told before, into copies."""
        wanted = self.some_of(refs) or sorted(refs)
        known = self.some_of(self.told.values())
        words = [*wanted, *[b"^" + name for name in known]]
        text = store.changes("--no-done", "--", *words)
        copy, again = self.repository.copy("part.git"), self.store.copy("part.gx")
        for place in (copy, again):
            place.take(text, "--force")
        reached = set(origin.git("rev-list", *wanted, *known).split())
        peeled = origin.peeled()[1]
        sent = {ref: name for ref, name in refs.items() if peeled[ref] in reached}
        what = f"{what}, of {words} alone"
        same(copy.named(), {**self.told, **sent}, f"{what}: refs of git")
        same(again.refs(), copy.refs(), f"{what}: refs of the store")
        same(again.holds(copy.objects()), True, f"{what}: objects of the store")
        copy.drop_file()
        again.drop_file()


def follow(steps: list[Step], chance: random.Random, places: Places, with_whole: bool) -> None:
    """One history, with each of its steps."""
    origin, store = places.origin()
    follower = Follower(places, chance)
    for number, step in enumerate(steps, 1):
        what = f"step {number}: gx export --changes"
        origin.follow(step)
        store.follow(origin, step.gone)
        same(store.refs(), origin.refs(), f"{what}: refs before")
        if with_whole:
            whole(origin, store, places, what)
        refs = origin.named()
        follower.forget(refs)
        if refs:
            follower.bring_part(origin, store, refs, what)
            follower.bring(store, refs, what)
            for place in (follower.repository, follower.store):
                same(place.refs(), origin.refs(), f"{what}: refs of {place.path.name}")
                held = place.holds(origin.objects())
                same(held, True, f"{what}: objects of {place.path.name}")


RANDOMS = st.randoms(use_true_random=False)


# a drawn history is often short: so there are more of them than the profile asks for
@settings(max_examples=2 * settings().max_examples)
@given(steps=histories(20), chance=RANDOMS)
def test_histories(steps: list[Step], chance: random.Random, new_places: MakePlaces) -> None:
    with new_places() as places:
        follow(steps, chance, places, with_whole=True)


@pytest.mark.long
@given(steps=histories(20), chance=RANDOMS)
def test_ranges(steps: list[Step], chance: random.Random, new_places: MakePlaces) -> None:
    """Only what is new, and some refs alone."""
    with new_places() as places:
        follow(steps, chance, places, with_whole=False)


def test_stream(stream: bytes, places: Places) -> None:
    origin, store = places.repository("origin.git"), places.store("origin.gx")
    origin.take(stream)
    store.take(stream)
    same(store.refs(), origin.refs(), "refs before")
    whole(origin, store, places, "the stream")


@pytest.mark.parametrize("gone", [[], [b"refs/heads/next"]])
def test_ref_named_by_digits(gone: list[bytes], places: Places) -> None:
    """A ref that is named by the digits of a commit that stays out isn't read in its place, by git
    nor by gx."""
    store = places.store("digits.gx")
    store.take(BASE)
    store.take(SINCE % store.refs()[:40])
    store.drop(gone)
    copy, again = places.repository("digits.git"), places.store("copy.gx")
    for place in (copy, again):
        place.take(BASE)
        place.take(store.changes("--", b"refs/last", b"^refs/heads/main"), "--done")
    same(again.refs(), store.refs(), "refs of the store")
    wanted = [line for line in store.refs().splitlines() if b" refs/" in line]
    same(copy.refs().splitlines(), wanted, "refs of git")
