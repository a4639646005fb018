"""Git takes the bundles that `gx bundle` writes, and the one of crates/gx_bundle_examples, which
another writer made. The gate holds what that program writes against its file stdout."""

from __future__ import annotations

import shutil
import tempfile
from collections.abc import Callable
from pathlib import Path

import pytest
from hypothesis import given
from hypothesis import strategies as st

from histories import Step, histories
from programs import TOP, Program, run_program
from test_trips import STREAMS

EXAMPLES = TOP / "crates" / "gx_bundle_examples"


def words_of(text: bytes) -> list[bytes]:
    return sorted(text.split())


def try_bundle(git: Callable[..., bytes], folder: Path, bundle: Path, refs: bytes) -> None:
    """Git clones and fetches a bundle, and has these refs, what they reach, and nothing else."""
    git("init", "-q", "--bare", folder / "empty")
    told = git("bundle", "verify", bundle, cwd=folder / "empty")
    assert b"records a complete history" in told
    mirror = folder / "mirror"
    git("clone", "-q", "--mirror", bundle, mirror)
    assert git("fsck", "--full", "--strict", cwd=mirror) == b""
    assert git("for-each-ref", "--format=%(objectname) %(refname)", cwd=mirror) == refs
    git("fetch", "-q", bundle, "refs/*:refs/*", cwd=folder / "empty")
    assert git("for-each-ref", "--format=%(objectname) %(refname)", cwd=folder / "empty") == refs
    held = git("cat-file", "--batch-all-objects", "--batch-check=%(objectname)", cwd=mirror)
    reached = git("rev-list", "--objects", "--no-object-names", "--all", cwd=mirror)
    assert words_of(held) == words_of(reached)


def test_git_takes_a_bundle(gx: Program, git: Callable[..., bytes], tmp_path: Path) -> None:
    bundle, store = EXAMPLES / "stdout", EXAMPLES / "stdin"
    try_bundle(git, tmp_path, bundle, gx.prints("refs", store))
    assert gx.prints("bundle", store) == bundle.read_bytes()


@pytest.mark.parametrize("name", STREAMS)
def test_git_takes_stores(
    gx: Program, git: Callable[..., bytes], new_store, tmp_path: Path, name: str
) -> None:
    """Whatever version a store has, its bundle is the same."""
    store, bundle = new_store(STREAMS[name]), tmp_path / "bundle"
    bundle.write_bytes(gx.prints("bundle", store))
    try_bundle(git, tmp_path, bundle, gx.prints("refs", store))
    gx.prints("grow", store)
    assert gx.prints("bundle", store) == bundle.read_bytes()


def test_clone_checks_out_head(
    gx: Program, git: Callable[..., bytes], new_store, tmp_path: Path
) -> None:
    """HEAD is what a ref holds, of its whole name or a shorter one: git checks out its branch."""
    store, bundle = new_store(STREAMS["two branches"]), tmp_path / "bundle"
    plain = gx.prints("bundle", store)
    mark = b"# v2 git bundle\n"
    for head in "refs/heads/a", "b":
        bundle.write_bytes(gx.prints("bundle", f"--head={head}", store))
        called = gx.prints("rev-parse", store, head)
        line = called.replace(b"\n", b" HEAD\n")
        assert bundle.read_bytes() == mark + line + plain.removeprefix(mark)
        copy = tmp_path / head[-1:]
        git("clone", "-q", bundle, copy)
        assert git("rev-parse", "HEAD", cwd=copy) == called
        assert git("symbolic-ref", "--short", "HEAD", cwd=copy) == f"{head[-1:]}\n".encode()
        assert git("status", "--porcelain", cwd=copy) == b""


@pytest.mark.parametrize("form", ["plain", "growing"])
def test_clone_has_what_head_reaches(
    gx: Program, git: Callable[..., bytes], new_store, tmp_path: Path, form: str
) -> None:
    """Words needn't name the ref that is to be HEAD: its commit is checked out of the bundle."""
    store, mirror = new_store(STREAMS["two branches"]), tmp_path / "mirror"
    if form == "growing":
        gx.prints("grow", store)
    git("init", "-q", "--bare", mirror)
    git("fast-import", "--quiet", stdin=gx.prints("export", store), cwd=mirror)
    a, b = (gx.prints("rev-parse", store, name).strip() for name in ("a", "b"))
    reached = objects_of(git, mirror, [a, b])
    behind = objects_of(git, mirror, [b])
    assert behind != reached
    for word, head in ("a", "b"), ("b", "a"):
        bundle, copy = tmp_path / f"{head}.bundle", tmp_path / head
        bundle.write_bytes(gx.prints("bundle", f"--head={head}", store, word))
        git("clone", "-q", bundle, copy)
        assert git("rev-parse", "HEAD", cwd=copy).strip() == (a if head == "a" else b)
        assert git("status", "--porcelain", cwd=copy) == b""
        assert git("fsck", "--full", "--strict", cwd=copy) == b""
        assert held_by(git, copy) == reached
        pack = gx.prints("bundle", "--pack", f"--head={head}", store, word)
        assert bundle.read_bytes().partition(b"\n\n")[2] == pack
    # what HEAD alone reaches goes out, but for what is excluded
    pack = gx.prints("bundle", "--pack", "--head=a", store, "^b")
    assert packed_in(git, tmp_path / "alone", pack) == reached - behind


def test_unknown_head_is_refused(gx: Program, new_store) -> None:
    """There is no such ref, or it holds a tag, which git checks out nowhere."""
    plain, growing = (new_store(STREAMS["two branches"], name) for name in ("plain", "growing"))
    gx.prints("grow", growing)
    for store in plain, growing:
        for head, kind in ("none", b"UnknownRef"), ("refs/tags/t", b"WrongKind"):
            done = gx("bundle", "--head", head, store)
            assert (done.status, done.out) == (1, b"")
            assert done.err == b"gx: revision 1: " + kind + b"\n"


# what is bundled, by its words: the revisions that these exclude, and the refs that they name
RANGES = {
    "a": ([], ["refs/heads/a"]),
    "refs/heads/b heads/a": ([], ["refs/heads/a", "refs/heads/b"]),
    "t": ([], ["refs/tags/t"]),
    "a..b": (["a"], ["refs/heads/b"]),
    "t..b a": (["t^{}"], ["refs/heads/a", "refs/heads/b"]),
    "^a b t": (["a"], ["refs/heads/b", "refs/tags/t"]),
    "b^!": (["b^@"], ["refs/heads/b"]),
    "--all ^a": (["a"], ["refs/heads/a", "refs/heads/b", "refs/tags/t"]),
    "a..a": (["a"], ["refs/heads/a"]),
}


def objects_of(git: Callable[..., bytes], mirror: Path, revisions: list[bytes]) -> set[bytes]:
    """The names of all objects that revisions reach."""
    words = [*revisions, b""]
    told = ["rev-list", "--objects", "--no-object-names", "--stdin"]
    return set(git(*told, stdin=b"\n".join(words), cwd=mirror).split())


def names_of(git: Callable[..., bytes], mirror: Path, revisions: list[str]) -> list[bytes]:
    return [name for word in revisions for name in git("rev-parse", word, cwd=mirror).split()]


def held_by(git: Callable[..., bytes], folder: Path) -> set[bytes]:
    return set(git("cat-file", "--batch-all-objects", "--batch-check=%(objectname)", cwd=folder).split())


def packed_in(git: Callable[..., bytes], folder: Path, pack: bytes) -> set[bytes]:
    """The names of the objects in a pack, which is read alone."""
    git("init", "-q", "--bare", folder)
    git("unpack-objects", "-q", stdin=pack, cwd=folder)
    return held_by(git, folder)


@pytest.mark.parametrize("form", ["plain", "growing"])
@pytest.mark.parametrize("asked", RANGES)
def test_git_takes_ranges(
    gx: Program, git: Callable[..., bytes], new_store, tmp_path: Path, asked: str, form: str
) -> None:
    """Who has what is excluded fetches the rest, which is all that the named refs reach besides."""
    store = new_store(STREAMS["two branches"])
    if form == "growing":
        gx.prints("grow", store)
    excluded, refs = RANGES[asked]
    whole, bundle, mirror = tmp_path / "whole", tmp_path / "bundle", tmp_path / "mirror"
    whole.write_bytes(gx.prints("bundle", store))
    git("clone", "-q", "--mirror", whole, mirror)
    words = asked.split()
    bundle.write_bytes(gx.prints("bundle", store, *words))
    head, _, pack = bundle.read_bytes().partition(b"\n\n")
    lines = head.split(b"\n")[1:]
    had = [line[1:41] for line in lines if line.startswith(b"-")]
    told = [line for line in lines if not line.startswith(b"-")]
    unwanted = names_of(git, mirror, excluded)
    assert set(had) == set(unwanted)
    objects = names_of(git, mirror, refs)
    assert told == [name + b" " + ref.encode() for name, ref in zip(objects, refs)]
    # the pack has what the refs reach, and what is excluded doesn't
    wanted = objects_of(git, mirror, objects)
    reached = objects_of(git, mirror, unwanted) if unwanted else set()
    assert packed_in(git, tmp_path / "alone", pack) == wanted - reached
    assert gx.prints("bundle", "--pack", store, *words) == pack
    # a repository that has what is excluded takes it
    copy = tmp_path / "copy"
    git("init", "-q", "--bare", copy)
    for number, name in enumerate(unwanted):
        git("fetch", "-q", "--no-tags", mirror, f"{name.decode()}:refs/had/{number}", cwd=copy)
    git("bundle", "verify", "-q", bundle, cwd=copy)
    git("fetch", "-q", bundle, "refs/*:refs/*", cwd=copy)
    assert git("fsck", "--full", "--strict", cwd=copy) == b""
    shown = git("for-each-ref", "--format=%(objectname) %(refname)", cwd=copy).splitlines()
    assert [line for line in shown if b" refs/had/" not in line] == told
    assert held_by(git, copy) == wanted | reached
    git("index-pack", "--stdin", "--fix-thin", stdin=pack, cwd=copy)


def test_prerequisites_are_wanted(
    gx: Program, git: Callable[..., bytes], new_store, tmp_path: Path
) -> None:
    """Git refuses a bundle where it hasn't got what is excluded."""
    store, bundle, empty = new_store(STREAMS["two branches"]), tmp_path / "bundle", tmp_path / "empty"
    bundle.write_bytes(gx.prints("bundle", store, "a..b"))
    git("init", "-q", "--bare", empty)
    done = run_program(["git", "fetch", "-q", bundle, "refs/*:refs/*"], cwd=empty)
    assert done.status != 0
    assert b"lacks these prerequisite commits" in done.err


@pytest.mark.parametrize("words", ["^a", "a^0", "a~0..b^{}", "a^@", "DIGITS"])
def test_words_that_name_no_ref_are_refused(
    gx: Program, git: Callable[..., bytes], new_store, words: str
) -> None:
    """So does git, which finds nothing to write."""
    store = new_store(STREAMS["two branches"])
    words = words.replace("DIGITS", gx.prints("rev-parse", store, "a").decode().strip())
    done = gx("bundle", store, *words.split())
    assert (done.status, done.out, done.err) == (1, b"", b"gx: bundle: Empty\n")


def test_words_are_refused_by_their_number(gx: Program, new_store) -> None:
    """The ref that is to be HEAD comes behind them."""
    store = new_store(STREAMS["two branches"])
    for words, err in {
        "a none": b"gx: revision 2: UnknownRef\n",
        "a..": b"gx: revision 1: UnknownRef\n",
        "--head=none a b": b"gx: revision 3: UnknownRef\n",
    }.items():
        done = gx("bundle", store, *words.split())
        assert (done.status, done.out, done.err) == (1, b"", err)


def test_head_stands_in_place_of_a_ref(gx: Program, new_store) -> None:
    """A ref HEAD of the store isn't told beside another HEAD."""
    stream = STREAMS["two branches"] + b"reset HEAD\nfrom refs/heads/a\n\n"
    store = new_store(stream)
    a, b = (gx.prints("rev-parse", store, name).strip() for name in ("refs/heads/a", "refs/heads/b"))
    heads = {(): [a], ("--head=b",): [b]}
    for words, names in heads.items():
        head = gx.prints("bundle", *words, store).partition(b"\n\n")[0].split(b"\n")
        assert [line for line in head if line.endswith(b" HEAD")] == [n + b" HEAD" for n in names]


@given(changes=histories(6), data=st.data())
def test_random_ranges(
    changes: list[Step], data: st.DataObject, gx: Program, git: Callable[..., bytes]
) -> None:
    """Of random histories, with merges and tags, a repository that has what is excluded gets with
    the bundle all that its refs reach, and no object twice."""
    with tempfile.TemporaryDirectory(prefix="gx-bundles-") as place:
        folder = Path(place)
        store, mirror = folder / "store", folder / "mirror"
        bundle, copy = folder / "bundle", folder / "copy"
        gx.prints("init", store)
        for change in changes:
            gx("import", store, "--force", stdin=change.stream)
        git("init", "-q", "--bare", mirror)
        git("fast-import", "--quiet", stdin=gx.prints("export", store), cwd=mirror)
        refs = [line.split()[1].decode() for line in gx.prints("refs", store).splitlines()]
        for _number in range(4):
            named = data.draw(st.lists(st.sampled_from(refs), min_size=1, max_size=3, unique=True))
            excluded = data.draw(st.lists(st.sampled_from(refs), max_size=2, unique=True))
            text = gx.prints("bundle", store, *named, *[f"^{ref}" for ref in excluded])
            bundle.write_bytes(text)
            git("init", "-q", "--bare", copy)
            for number, ref in enumerate(excluded):
                name = git("rev-parse", f"{ref}^0", cwd=mirror).decode().strip()
                git("fetch", "-q", "--no-tags", mirror, f"{name}:refs/had/{number}", cwd=copy)
            before = held_by(git, copy)
            told = [f"{ref}:refs/told/{ref}" for ref in named]
            git("fetch", "-q", "--no-tags", bundle, *told, cwd=copy)
            assert git("fsck", "--full", "--strict", cwd=copy) == b""
            sent = packed_in(git, folder / "alone", text.partition(b"\n\n")[2])
            objects = objects_of(git, copy, [f"refs/told/{ref}".encode() for ref in named])
            assert sent == objects - before
            shutil.rmtree(copy)
            shutil.rmtree(folder / "alone")
