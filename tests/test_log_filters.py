"""Commits that `gx log` leaves out, passes over and counts, compared with git rev-list.

git lists commits by their dates, and a store by when they were put: so what git lists is compared as
a set, and the order with that of the whole list.
"""

from __future__ import annotations

import random
from collections.abc import Callable
from pathlib import Path

import pytest
from hypothesis import given
from hypothesis import strategies as st

from programs import Program, counted

COMMIT = b"commit refs/heads/b%d\nmark :%d\nauthor A <a@x> %d +0000\n"
LINE = b"commit refs/heads/line\ncommitter C <c@x> %d +0000\ndata 3\nl%02d\n"


def woven(chance: random.Random, count: int) -> bytes:
    """Commits on branches of their own, of which many are merges, and whose dates go back and forth."""
    made = []
    for mark in range(1, count + 1):
        many = min(mark - 1, chance.choice([0, 1, 1, 1, 2, 2, 3]))
        parents = chance.sample(range(1, mark), many)
        lines = [COMMIT % (mark, mark, chance.randrange(30))]
        lines.append(b"committer C <c@x> %d +0100\ndata 3\nc%02d\n" % (chance.randrange(20), mark))
        lines += [b"%s :%d\n" % (b"merge" if at else b"from", p) for at, p in enumerate(parents)]
        made.append(b"".join(lines) + b"\n")
    return b"".join(made)


class Sides:
    """A repository of git, and stores of the same history, of version 2 and growing."""

    def __init__(self, git: Callable[..., bytes], gx: Program, folder: Path, stream: bytes):
        self.git, self.gx, self.repository = git, gx, folder / "repository"
        git("init", "-q", "--bare", self.repository)
        git("fast-import", "--quiet", cwd=self.repository, stdin=stream)
        self.stores = [folder / "plain", folder / "growing"]
        for store in self.stores:
            gx.prints("init", store)
            gx.prints("import", store, stdin=stream)
        gx.prints("grow", self.stores[1])

    def listed(self, *words: str) -> list[bytes]:
        """What `gx log` prints, which is the same of both stores."""
        one, other = [self.gx.prints("log", *words[:-1], store, *words[-1].split()) for store in self.stores]
        assert one == other, words
        return one.split(b"\n")[:-1]

    def kept(self, *words: str) -> set[bytes]:
        return set(self.git("rev-list", *words, cwd=self.repository).split())


Asked = tuple[list[str], list[str]]


@st.composite
def filters(draw: st.DrawFn) -> Asked:
    """Options that leave out commits, of gx and of git."""
    ours, gits = [], []
    for flag in draw(st.sets(st.sampled_from(["--merges", "--no-merges"]), max_size=2)):
        ours.append(flag)
        gits.append(flag)
    if draw(st.booleans()):
        seconds = draw(st.integers(0, 20))
        ours.append(f"--since={seconds}")
        gits.append(f"--since-as-filter=@{seconds} +0000")
    if draw(st.booleans()):
        seconds = draw(st.integers(0, 20))
        ours.append(f"--until={seconds}")
        gits.append(f"--min-age={seconds}")
    return ours, gits


@st.composite
def ranges(draw: st.DrawFn, count: int) -> str:
    """Words of ranges, one behind the other."""
    marks = st.integers(1, count)
    words = draw(st.lists(st.tuples(st.sampled_from(["", "", "^"]), marks), max_size=3))
    return " ".join([f"b{draw(marks)}", *(f"{front}b{mark}" for front, mark in words)])


def cut(names: list[bytes], skip: int | None, most: int | None) -> list[bytes]:
    left = names[skip or 0 :]
    return left if most is None else left[:most]


@given(seed=st.integers(0, 10**6), count=st.integers(1, 25), data=st.data())
def test_random_histories(
    seed: int,
    count: int,
    data: st.DataObject,
    git: Callable[..., bytes],
    gx: Program,
    tmp_path_factory: pytest.TempPathFactory,
) -> None:
    """What is left out is what git leaves out. Then commits are passed over, counted and turned."""
    stream = woven(random.Random(seed), count)
    sides = Sides(git, gx, tmp_path_factory.mktemp("log"), stream)
    for ours, gits in data.draw(st.lists(filters(), min_size=3, max_size=8)):
        words = data.draw(ranges(count))
        kept = sides.kept(*gits, *words.split())
        names = [name for name in sides.listed(words) if name in kept]
        assert len(names) == len(kept)
        assert sides.listed(*ours, words) == names, (ours, words)
        counted["filters that keep commits" if kept else "filters that keep none"] += 1
        skip, most = data.draw(st.tuples(*[st.one_of(st.none(), st.integers(0, 9))] * 2))
        numbers = [] if skip is None else [f"--skip={skip}"]
        numbers += [] if most is None else [f"--max-count={most}"]
        left = cut(names, skip, most)
        assert sides.listed(*ours, *numbers, words) == left, (ours, numbers, words)
        assert sides.listed("--reverse", *ours, *numbers, words) == left[::-1]
        for front in ([], ["--reverse"]):
            assert sides.listed("--count", *front, *ours, *numbers, words) == [b"%d" % len(left)]
        assert sides.git("rev-list", "--count", *gits, *numbers, *words.split(), cwd=sides.repository) == (
            b"%d\n" % len(left)
        )


def test_lines_of_commits(git: Callable[..., bytes], gx: Program, tmp_path: Path) -> None:
    """Where each commit has one parent and its dates rise, the list is git's."""
    stream = b"".join(LINE % (10 * number, number) for number in range(1, 13))
    sides = Sides(git, gx, tmp_path, stream)
    for words in (
        ["--since=50"],
        ["--until=50"],
        ["--since=30", "--until=70", "--skip=2"],
        ["--skip=3", "--max-count=4"],
        ["--skip=20"],
        ["--no-merges", "-n3", "--reverse"],
        ["--merges"],
        ["--until=18446744073709551615", "--since=0"],
    ):
        gits = [word.replace("--since=", "--max-age=").replace("--until=", "--min-age=") for word in words]
        gits = ["--min-age=99999999" if len(word) > 28 else word for word in gits]
        wanted = sides.git("rev-list", *gits, "line", cwd=sides.repository)
        assert sides.listed(*words, "line") == wanted.split(), words


@pytest.mark.parametrize("form", ["oneline", "raw", "subject", "author", "dates"])
def test_formats(git: Callable[..., bytes], gx: Program, tmp_path: Path, form: str) -> None:
    """A gap stands between the commits that are printed, and before none of them."""
    sides = Sides(git, gx, tmp_path, woven(random.Random(7), 20))
    some = sides.listed("--no-merges", "--skip=1", "-n3", "b20 b19 b18")
    alone = [sides.listed(f"--format={form}", "-n1", name.decode()) for name in some]
    gap = [b""] if form == "raw" else []
    wanted = [line for lines in alone for line in gap + lines][len(gap) :]
    found = sides.listed(f"--format={form}", "--no-merges", "--skip=1", "-n3", "b20 b19 b18")
    assert found == wanted


@pytest.mark.parametrize(
    "word", ["--since=yesterday", "--until=-1", "--since=1.5", "--skip=x", "--until=18446744073709551616"]
)
def test_refused_words(gx: Program, new_store: Callable[..., Path], word: str) -> None:
    """A time is a whole number of seconds, and so is what is passed over one of commits."""
    store = new_store(LINE % (1, 1))
    done = gx("log", word, store, "line")
    assert (done.status, done.out) == (2, b"")
    assert done.err
