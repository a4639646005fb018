"""Holds the definition of a path's history to git: `git rev-list REV.. -- PATH..` of histories made at random, with merges of
many parents. No command of gx lists these yet; one that does has its oracle here.
"""

from __future__ import annotations

import random

from histories import Step, histories
from hypothesis import given
from hypothesis import strategies as st
from path_history import Commits, Files, listed
from places import MakePlaces, Repository, same
from programs import counted
from test_merge_base import Woven


def files_of(git: Repository, commit: bytes) -> Files:
    rows = git.git("ls-tree", "-r", "-t", "-z", commit).split(b"\0")[:-1]
    parts = [row.partition(b"\t") for row in rows]
    return {path: (front.split()[0], front.split()[2]) for front, _, path in parts}


def commits_of(git: Repository) -> Commits:
    rows = [line.split() for line in git.git("rev-list", "--all", "--parents").splitlines()]
    return Commits({row[0]: row[1:] for row in rows}, {row[0]: files_of(git, row[0]) for row in rows})


def some(chance: random.Random, names: list[bytes]) -> list[bytes]:
    return sorted({chance.choice(names) for _ in range(chance.choice([1, 1, 2, 3]))})


@given(steps=histories(8, Woven), chance=st.randoms(use_true_random=False))
def test_paths_of_random_histories(steps: list[Step], chance: random.Random, new_places: MakePlaces) -> None:
    with new_places() as places:
        git, _ = places.origin()
        for step in steps:
            git.follow(step)
        commits = commits_of(git)
        paths = sorted({path for files in commits.files.values() for path in files} | {b"nowhere"})
        for _ in range(20):
            tips, asked = some(chance, sorted(commits.parents)), some(chance, paths)
            told = git.git("--literal-pathspecs", "rev-list", *tips, "--", *asked).split()
            found = listed(commits, tips, asked)
            same(sorted(told), sorted(found), f"commits of {tips} at {asked}")
            counted["commits that change a path"] += len(found)
