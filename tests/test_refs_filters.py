"""Refs that pass filters, beside git for-each-ref."""

from __future__ import annotations

import hashlib
import subprocess
from collections.abc import Callable
from pathlib import Path

import pytest
from hypothesis import given
from hypothesis import strategies as st

from histories import Step, histories
from programs import Program, counted

SUFFIXES = ["", "", "", "~1", "^0", "^2", "~3"]
TESTS = ["--contains", "--no-contains", "--merged", "--no-merged", "--points-at"]


def git(folder: Path, environment: dict[str, str], *words: str, stdin: bytes = b"") -> bytes | None:
    """What git prints in a repository, or nothing where it refuses."""
    done = subprocess.run(
        ["git", *words], cwd=folder, env=environment, input=stdin, capture_output=True, check=False
    )
    return done.stdout if done.returncode == 0 else None


def listed(folder: Path, environment: dict[str, str], words: list[str]) -> bytes | None:
    return git(folder, environment, "for-each-ref", "--format=%(objectname) %(refname)", *words)


@st.composite
def patterns(draw: st.DrawFn, names: list[str]) -> list[str]:
    """Fronts of names, up to a slash and within components."""
    fronts = []
    for name in draw(st.lists(st.sampled_from(names), max_size=2)):
        length = draw(st.integers(min_value=1, max_value=len(name)))
        parts = name.split("/")
        whole = "/".join(parts[: draw(st.integers(min_value=1, max_value=len(parts)))])
        fronts.append(draw(st.sampled_from([name, whole, whole + "/", name[:length], name + "x"])))
    return fronts


@st.composite
def filters(draw: st.DrawFn, names: list[str]) -> list[str]:
    """Options, of which each stands once at most."""
    words = []
    for test in draw(st.lists(st.sampled_from(TESTS), unique=True, max_size=3)):
        words += [test, draw(st.sampled_from(names)) + draw(st.sampled_from(SUFFIXES))]
    return words


@given(changes=histories(6), data=st.data())
def test_random_filters(
    changes: list[Step],
    data: st.DataObject,
    gx: Program,
    environment: dict[str, str],
    new_store: Callable[..., Path],
    tmp_path_factory: pytest.TempPathFactory,
) -> None:
    """Whatever is asked of the refs of a history, git lists the same of them; where it refuses a
    revision, gx does."""
    store = new_store(name="filters-" + hashlib.sha1(repr(changes).encode()).hexdigest())
    for change in changes:
        gx("import", store, "--force", stdin=change.stream)
    grown = store.with_suffix(".grown")
    grown.write_bytes(store.read_bytes())
    gx.prints("grow", grown)
    names = [line.split()[1].decode() for line in gx.prints("refs", store).splitlines()]
    if not names:
        return
    folder = tmp_path_factory.mktemp("git")
    git(folder, environment, "init", "--quiet", "--bare", ".")
    stream = gx.prints("export", store)
    assert git(folder, environment, "fast-import", "--quiet", stdin=stream) is not None
    assert listed(folder, environment, []) == gx.prints("refs", store)
    for _ in range(12):
        options = data.draw(filters(names))
        fronts = data.draw(patterns(names))
        wanted = listed(folder, environment, [*options, *fronts])
        for file in (store, grown):
            done = gx("refs", *options, file, *fronts)
            assert (done.out if done.status == 0 else None) == wanted, (options, fronts)
        counted["refs that pass filters" if wanted else "other filters"] += 1
    for file in (store, grown):
        file.unlink()


CHAIN = b"".join(
    b"commit refs/heads/main\nmark :%d\ncommitter A <a@x> %d +0000\ndata 1\n%d\n" % (n, n, n)
    for n in range(1, 6)
)
REFS = (
    b"reset refs/heads/old\nfrom :2\n\nreset refs/heads/older\nfrom :1\n\n"
    b"tag v1\nfrom :3\ntagger A <a@x> 7 +0000\ndata 1\nt\n"
)


@pytest.mark.quick
def test_chain(gx: Program, new_store: Callable[..., Path]) -> None:
    """Refs along one line of commits, by each test, and by names."""
    store = new_store(name="chain")
    gx.prints("import", store, stdin=CHAIN + REFS)

    def names(*words: str) -> list[str]:
        options = [word for word in words if not word.startswith("refs/")]
        fronts = [word for word in words if word.startswith("refs/")]
        text = gx.prints("refs", *options, store, *fronts).decode()
        return [line.split()[1].removeprefix("refs/") for line in text.splitlines()]

    every = ["heads/main", "heads/old", "heads/older", "tags/v1"]
    assert names() == every
    assert names("--contains=old") == ["heads/main", "heads/old", "tags/v1"]
    assert names("--contains=v1") == ["heads/main", "tags/v1"]
    assert names("--no-contains=old") == ["heads/older"]
    assert names("--merged=old") == ["heads/old", "heads/older"]
    assert names("--merged=main") == every
    assert names("--no-merged=old") == ["heads/main", "tags/v1"]
    assert names("--points-at=v1") == ["tags/v1"]
    assert names("--points-at=v1^{}") == ["tags/v1"]
    assert names("--points-at=main~2") == ["tags/v1"]
    assert names("--contains=older", "--no-merged=old", "refs/heads") == ["heads/main"]
    assert names("refs/heads/old") == ["heads/old"]
    assert names("refs/heads/ol") == []
    assert names("refs/heads/", "refs/tags/v1") == every


@pytest.mark.quick
def test_refusals(gx: Program, new_store: Callable[..., Path]) -> None:
    """A revision that gives nothing is told by its number, and nothing is printed."""
    store = new_store(name="refusals")
    gx.prints("import", store, stdin=CHAIN)
    for words, number, kind in (
        (["--contains=nope"], 1, "UnknownRef"),
        (["--merged=main", "--points-at=nope"], 1, "UnknownRef"),
        (["--merged=nope", "--points-at=main"], 2, "UnknownRef"),
        (["--contains=main^{tree}"], 1, "WrongKind"),
        (["--no-contains=^"], 1, "BadRevision"),
    ):
        done = gx("refs", *words, store)
        assert (done.status, done.out) == (1, b""), words
        assert done.err.decode() == f"gx: revision {number}: {kind}\n", words
    done = gx("refs", "--points-at=main^{tree}", store)
    assert (done.status, done.out) == (0, b"")
