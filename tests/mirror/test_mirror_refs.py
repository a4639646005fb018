"""What refs a store takes, and what refs stay as they are."""

from __future__ import annotations

import re

from mirror_world import STAYS, Counted, World


def test_signed_commit(world: World) -> None:
    """It is followed, and what comes from it."""
    repository = world.repository
    signed = repository.signed(repository.commit("main"))
    repository.set({b"refs/heads/signed": signed})
    world.follows()
    repository.commit("main", signed)
    repository.commit("signed")
    repository.git("tag", "-m", "Two", "v2", signed)
    world.follows()
    assert set(world.store.records()) >= set(repository.objects())


def test_commit_that_no_store_holds(world: World, counted: Counted) -> None:
    """A ref that reaches it stays, the others go, and nothing is sent again."""
    repository, held = world.repository, world.store.refs()
    early = repository.early(repository.commit("main"))
    repository.commit("main", early)
    repository.set({b"refs/heads/early": early})
    repository.commit("side")
    repository.commit("new")
    done = world.mirror()
    told = b" stays as it is: BadObject: commit " + early
    assert done.status == STAYS
    assert [line for line in done.err.splitlines() if told in line] == [
        b"gx-mirror: refs/heads/early" + told,
        b"gx-mirror: refs/heads/main" + told,
    ]
    wanted = {**repository.refs(), b"refs/heads/main": held[b"refs/heads/main"]}
    del wanted[b"refs/heads/early"]
    assert world.store.refs() == wanted
    assert set(world.store.records()) <= set(repository.objects())
    files = world.store.files()
    done = world.mirror(env=counted.environment)
    assert (done.status, world.store.files()) == (STAYS, files)
    assert counted.runs("gx") == ["refs"]
    assert "\ngit cat-file --batch --buffer\n" not in counted.log.read_text()


def test_what_no_store_holds(world: World) -> None:
    """Tags of blobs, trees and tags, tags under other names, and refs of blobs."""
    repository = world.repository
    words = ["rev-parse", "v1", "main:file", "main^{tree}"]
    inner, blob, tree = repository.git(*words).split()
    made = {b"blob": (b"blob", blob), b"tree": (b"tree", tree), b"outer": (b"tag", inner)}
    left = {b"refs/tags/" + name: repository.tag(name, *of) for name, of in made.items()}
    left.update({b"refs/tags/other": inner, b"refs/other/blob": blob})
    repository.set(left)
    repository.commit("main")
    done = world.mirror()
    assert done.status == STAYS
    told = re.findall(rb"^gx-mirror: (\S+) stays as it is: (\w+)", done.err, re.M)
    kinds = {ref: b"BadRef" if ref.endswith(b"other") else b"WrongKind" for ref in left}
    assert dict(told) == kinds
    wanted = {ref: held for ref, held in repository.refs().items() if ref not in left}
    assert world.store.refs() == wanted


def test_tree_that_no_store_holds(world: World, counted: Counted) -> None:
    """A mode that git writes no more. It is found once, and what comes from it stays without
    another import."""
    repository = world.repository
    blob = repository.git("hash-object", "-w", "--stdin", stdin=b"text").strip()
    text = b"100664 file\0" + bytes.fromhex(blob.decode())
    words = ["hash-object", "-w", "-t", "tree", "--literally", "--stdin"]
    tree = repository.git(*words, stdin=text).strip()
    odd = repository.git("commit-tree", "-p", "main", tree, stdin=b"odd\n").strip()
    repository.set({b"refs/heads/odd": odd})
    repository.commit("main")
    done = world.mirror()
    told = b" stays as it is: BadObject: tree %s of commit %s" % (tree, odd)
    assert done.status == STAYS and b"gx-mirror: refs/heads/odd" + told in done.err, done
    wanted = {ref: held for ref, held in repository.refs().items() if held != odd}
    assert world.store.refs() == wanted
    assert set(world.store.records()) <= set(repository.objects())
    repository.commit("odd")
    repository.commit("above", odd)
    done = world.mirror(env=counted.environment)
    assert done.status == STAYS and b"gx-mirror: refs/heads/above" + told in done.err, done
    assert (world.store.refs(), counted.runs("gx")) == (wanted, ["refs"])


def test_directory(world: World) -> None:
    """A branch becomes a directory of branches, and that a branch."""
    world.repository.commit("foo")
    world.follows()
    world.repository.delete(b"refs/heads/foo")
    world.repository.git("branch", "foo/bar", "main")
    world.follows()
    world.repository.delete(b"refs/heads/foo/bar")
    world.repository.git("branch", "foo", "main")
    world.follows()


def test_no_refs_of_a_store(world: World) -> None:
    """Symbolic refs, a HEAD of its own commit, a commit that is replaced, and one that is
    grafted."""
    repository = world.repository
    first, last = repository.refs()[b"refs/heads/main"], repository.commit("main")
    repository.git("update-ref", "--no-deref", "HEAD", first)
    repository.git("symbolic-ref", "refs/remotes/origin/HEAD", "refs/heads/main")
    repository.git("symbolic-ref", "refs/remotes/origin/none", "refs/heads/none")
    repository.git("replace", last, first)
    (repository.folder() / "info").mkdir(exist_ok=True)
    (repository.folder() / "info/grafts").write_bytes(last + b"\n")
    world.follows()
    assert first in world.store.names()


def test_replaced_by_an_early_commit(world: World) -> None:
    """The commit comes as it was made, and only the ref of what replaces it stays."""
    last = world.repository.commit("main")
    early = world.repository.early(last)
    world.repository.git("replace", last, early)
    done = world.mirror()
    told = b"gx-mirror: refs/replace/%s stays as it is: BadObject: commit %s"
    assert (done.status, told % (last, early) in done.err) == (STAYS, True)
    assert world.store.refs()[b"refs/heads/main"] == last


def test_ref_that_became_symbolic(world: World) -> None:
    """Its file is there, and git lists it, but not as a ref of its own."""
    world.repository.git("symbolic-ref", "refs/heads/side", "refs/heads/main")
    world.follows()
    assert b"refs/heads/side" not in world.store.refs()
