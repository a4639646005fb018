"""Has git use stores as remotes beside remotes of its own. What each push tells of each ref, and
the refs of the remote and of each clone, have to be the same behind each command."""

from __future__ import annotations

import os
import shutil
from collections.abc import Callable
from pathlib import Path

import pytest
from remote_world import World


def clones(world: World) -> None:
    """Clones of each kind have the same refs, and files."""
    world.started()
    kinds = {"bare": ["--bare"], "mirror": ["--mirror"], "none": ["--no-tags"]}
    kinds["one"] = ["--single-branch", "-b", "side"]
    for name, words in kinds.items():
        world.see("clone", *words, world.url, name, where=".")
    assert world.git("status", "--porcelain", where="clone") == ""
    assert world.git("symbolic-ref", "HEAD", where="clone") == "refs/heads/main"
    world.git("fsck", "--strict", where="clone")
    world.see("ls-remote", world.url, where=".")
    world.see("ls-remote", "--symref", "origin", "HEAD")


def empty(world: World) -> None:
    """A remote that has nothing yet."""
    if world.remote.suffix == ".gx":
        world.store("init")
    world.see("clone", world.url, "clone", where=".")
    world.commit({"a": "1\n"}, where="clone")
    world.see("push", "--porcelain", "origin", "HEAD:refs/heads/main", where="clone")
    world.see("fetch")


def fetches(world: World) -> None:
    """What is new comes, by a remote's name and by its place; what is gone goes by --prune."""
    world.started()
    world.commit({"file": "4\n"})
    world.git("tag", "-m", "Second", "v2")
    world.git("tag", "-m", "Of old", "old", "side")
    world.see("push", "--porcelain", "origin", "main", "v2", "old")
    world.see("-c", "protocol.version=2", "pull", "-q", where="clone")
    world.see("fetch", where="clone")
    world.commit({"file": "5\n"})
    world.git("checkout", "-q", "-b", "topic")
    world.commit({"file": "6\n"})
    world.see("push", "--porcelain", "origin", "main", "topic", ":side")
    world.see("fetch", "-q", world.url, "topic:taken", where="clone")
    world.see("fetch", "origin", "refs/heads/main:refs/heads/other", where="clone")
    world.see("fetch", "--prune", where="clone")
    world.see("pull", "-q", world.url, "topic", where="clone")
    world.git("fsck", where="clone")


def pushes(world: World) -> None:
    """By each kind of name for what is sent, and to other names."""
    world.started()
    first = world.git("rev-parse", "HEAD~1")
    sources = {"HEAD": "from-head", first: "from-digits", "main~1": "from-above"}
    refs = [f"{source}:refs/heads/{name}" for source, name in sources.items()]
    world.see("push", "--porcelain", "origin", *refs)
    world.see("push", "--porcelain", "-u", "origin", "main:up")
    refs = ["main:refs/notes/commits", "main:refs/other/place", "side:refs/tags/place"]
    world.see("push", "--porcelain", "origin", *refs)
    world.see("push", "--porcelain", world.url, "main~1:refs/heads/by-url")
    world.see("push", "--porcelain", "origin", "nothing")
    world.git("tag", "-m", "Own", "own", "main")
    # what git-remote-gx has refs of its own for, in a stream
    names = ["check", "export", "fetch", "push/0", "push/1"]
    world.see("push", "--porcelain", "origin", *(f"HEAD:refs/gx/{name}" for name in names), "own")
    world.see("push", "--porcelain", "origin", *(f"HEAD~1:refs/gx/{name}/below" for name in names))
    world.commit({"file": "7\n"})
    world.see("push", "--porcelain", "--dry-run", "origin", "main")
    world.see("push", "--porcelain", "origin", "main")
    world.see("push", "--porcelain", "origin", "main")
    world.see("push", "--porcelain", "--all", "origin")
    world.see("fetch", where="clone")


def forced(world: World) -> None:
    """Branches that lose commits, and tags that move."""
    world.started()
    world.see("fetch", where="clone")
    world.git("commit", "-q", "--amend", "-m", "Amended")
    world.git("tag", "-f", "-m", "Moved", "v1")
    world.git("tag", "-f", "light", "side")
    lease = "--force-with-lease"
    both = [[f"{lease}=main:side", "main"], [lease, "+light", "main"]]
    for refs in (["main", "v1", "light"], *both, ["+v1"]):
        world.see("push", "--porcelain", "origin", *refs)
    world.see("fetch", where="clone")
    world.see("fetch", "--tags", where="clone")
    world.see("fetch", "--tags", "--force", where="clone")
    world.commit({"mine": "1\n"}, where="clone")
    world.see("push", "--porcelain", "origin", "main", where="clone")
    world.see("push", "--porcelain", "--force", "origin", "main", where="clone")
    world.git("commit", "-q", "--amend", "-m", "Again")
    world.see("push", "--porcelain", lease, "origin", "main")
    world.see("fetch")
    for refs in (["main"], ["main", ":light"], ["main", "main:new"]):
        world.git("commit", "-q", "--amend", "-m", f"Alone {len(refs)}")
        world.see("push", "--porcelain", lease, "origin", *refs)
    world.git("commit", "-q", "--amend", "-m", "By digits")
    held = world.git("rev-parse", "origin/main")
    push = ["push", "--porcelain", f"{lease}=fresh:"]
    world.see(*push, f"{lease}=main:{held}", "origin", "main", "main:fresh")
    world.see(*push, "origin", "main:fresh")


def deletions(world: World) -> None:
    """Refs that go, and names that become directories."""
    world.started()
    world.see("push", "--porcelain", "origin", ":side", ":light")
    world.see("push", "--porcelain", "origin", "--delete", "v1", "nothing")
    world.see("push", "--porcelain", "origin", "--delete", "v1")
    world.see("push", "--porcelain", "origin", "main:again")
    refs = [":refs/heads/none", ":again", ":refs/tags/none", "main:refs/heads/more"]
    world.see("push", "--porcelain", "origin", *refs)
    world.see("push", "--porcelain", "origin", ":refs/heads/none")
    world.see("push", "--porcelain", "origin", "main:refs/heads/main/below")
    world.see("push", "--porcelain", "origin", "main:refs/heads/dir/below", "main:refs/heads/dir2")
    world.see("push", "--porcelain", "origin", ":refs/heads/dir/below", "main:refs/heads/dir")
    world.see("fetch", "--prune", where="clone")
    world.see("push", "--porcelain", "--prune", "origin", "refs/heads/*:refs/heads/*")
    world.see("fetch", "--prune", "--prune-tags", where="clone")


def mirrors(world: World) -> None:
    """All refs, as they are."""
    world.started()
    world.see("push", "--porcelain", "--mirror", "origin")
    world.git("branch", "-m", "side", "side/below")
    world.git("tag", "-d", "v1")
    world.git("commit", "-q", "--amend", "-m", "Amended")
    world.see("push", "--porcelain", "--mirror", "origin")
    world.see("clone", "--mirror", world.url, "mirror", where=".")
    world.commit({"file": "8\n"})
    world.see("push", "--porcelain", "--mirror", "origin")
    world.see("remote", "update", "--prune", where="mirror")
    world.see("push", "--porcelain", "--mirror", "origin", where="mirror")


def tags(world: World) -> None:
    """Tags that come along."""
    world.started()
    world.commit({"file": "9\n"})
    world.git("tag", "-m", "Along\n\nMore of it.", "along")
    apart = world.git("commit-tree", "-m", "apart", "HEAD^{tree}")
    world.git("tag", "-m", "Not reached", "apart", apart)
    world.see("push", "--porcelain", "--follow-tags", "origin", "main")
    world.see("fetch", where="clone")
    world.see("push", "--porcelain", "--tags", "origin")
    world.see("fetch", where="clone")
    world.see("fetch", "--tags", where="clone")
    world.git("tag", "-f", "-m", "Mine", "v1", where="clone")
    world.see("fetch", where="clone")


def contents(world: World) -> None:
    """Names of files and refs, modes, merges, encodings, and a directory in place of a file."""
    world.started()
    names = ['q"uote', "sp ace/t\tab", "\u00e4\u00f6", b"l\xe4tin", "a"]
    world.commit({**{name: f"{number}\n" for number, name in enumerate(names, 1)}, "empty": ""})
    (world.folder / "work/link").symlink_to("q\"uote")
    (world.folder / "work/a").unlink()
    world.commit({"a/b": "6\n", "a/c/d": "7\n"})
    shutil.rmtree(world.folder / "work/a")
    world.commit({"a": "8\n"})
    world.git("update-index", "--add", "--cacheinfo", f"160000,{'1' * 40},module")
    world.git("-c", "i18n.commitEncoding=ISO-8859-1", "commit", "-qm", "Module")
    world.git("checkout", "-q", "-b", "merged", "side")
    world.commit({"side": "9\n"})
    world.git("merge", "-q", "-m", "Merge", "main")
    world.git("branch", "b\u00e4r")
    world.git("update-ref", os.fsdecode(b"refs/heads/l\xe4tin"), "HEAD")
    world.see("push", "--porcelain", "--all", "origin")
    world.see("fetch", where="clone")
    world.see("clone", world.url, "again", where=".")
    world.git("fsck", where="again")


def raced(world: World) -> None:
    """Another push comes between what git was told of the remote and its own push."""
    world.started()
    hook = world.folder / "work/.git/hooks/pre-push"
    hook.parent.mkdir(exist_ok=True)
    pushes = (["main"], ["--force-with-lease", "main"], ["new"], ["-f", "v1"], [":side"])
    for number, refs in enumerate(pushes):
        world.commit({f"theirs{number}": "1\n"}, where="clone")
        world.git("tag", "-f", "-m", f"{number}", "v1", where="clone")
        world.git("branch", "-f", "new", where="clone")
        theirs = f"git -C {world.folder}/clone push -q -f origin main v1 new main:side"
        hook.write_text(f"#!/bin/sh\nunset $(git rev-parse --local-env-vars)\nexec {theirs}\n")
        hook.chmod(0o755)
        world.commit({f"ours{number}": "1\n"})
        world.git("branch", "-f", "new")
        world.see("push", "--porcelain", "origin", *refs)
        hook.unlink()
        world.see("fetch")
        world.git("reset", "-q", "--hard", "origin/main")
        world.see("push", "-q", "origin", ":new")


def atomic(world: World) -> None:
    """All refs of a push, or none of them."""
    world.started()
    world.git("branch", "-f", "light", world.commit({"file": "4\n"}))
    push = ["push", "--porcelain", "--atomic"]
    world.see(*push, "origin", "main", "main:new", ":side")
    world.see(*push, "origin", "main", "main:refs/heads/other")
    world.git("commit", "-q", "--amend", "-m", "Amended")
    clash = ["main:other", "main:refs/heads/other/below"]
    for refs in (["main", "main:other"], clash, ["+main", "main:main/below"]):
        world.see(*push, "origin", *refs)
    world.see(*push, "--force", "origin", "main", "other", "main:refs/heads/third")
    refs = ["+main", ":other", "refs/tags/light:refs/tags/third", ":refs/tags/none"]
    world.see(*push, "--force-with-lease", "origin", *refs)
    world.see(*push, "--dry-run", "origin", "main:dry")
    world.see("fetch", where="clone")


CASES = [clones, empty, fetches, pushes, forced, deletions, mirrors, tags, contents, raced, atomic]


@pytest.mark.parametrize("case", CASES, ids=lambda case: case.__name__)
def test_beside_git(case: Callable[[World], None], tmp_path: Path, gx_path: Path) -> None:
    plain, by_store = (World(tmp_path / name, f"remote.{name}", gx_path) for name in ("git", "gx"))
    case(plain)
    case(by_store)
    for of_git, of_store in zip(plain.seen, by_store.seen):
        assert of_store == of_git
    assert len(by_store.seen) == len(plain.seen)
