"""A store isn't emptied since its source is damaged, or isn't the one that was meant."""

from __future__ import annotations

import errno
import os
import shutil

import pytest
from failing import Call, needs_faults, run_watched
from mirror_world import MIRROR, UNTRUSTED, USAGE, Counted, Repository, World
from programs import SCRIPTS, run_program

# what root runs that may read just what a file's mode says
LESS = ["setpriv", "--bounding-set=-dac_override,-dac_read_search"] * (os.geteuid() == 0)

BROKEN = {
    "empty": b"",
    "zeros": b"0" * 40 + b"\n",
    "nulls": b"\0" * 41,
    "short": b"1234\n",
    "unknown": b"12" * 20 + b"\n",
}


@pytest.mark.parametrize("text", BROKEN.values(), ids=BROKEN.keys())
def test_broken_ref(world: World, text: bytes) -> None:
    """A ref's file that a crash has left without its digits."""
    (world.repository.folder() / "refs/heads/main").write_bytes(text)
    world.stops(UNTRUSTED, "refs/heads/main")


def test_name_that_git_refuses(world: World) -> None:
    refs = world.repository.folder() / "refs/heads"
    shutil.copy(refs / "main", refs / "a..b")
    world.stops(UNTRUSTED, "refs/heads/a..b")


@pytest.mark.parametrize("size", [0, 60, 110])
def test_cut_packed_refs(world: World, size: int) -> None:
    """git says nothing of one that is empty."""
    world.repository.git("pack-refs", "--all")
    world.repository.commit("loose")
    world.follows()
    packed = world.repository.folder() / "packed-refs"
    packed.write_bytes(packed.read_bytes()[:size])
    world.stops(UNTRUSTED, "packed-refs")


@pytest.mark.skipif(os.geteuid() == 0 and not shutil.which("setpriv"), reason="root reads all")
def test_folder_that_cannot_be_read(world: World) -> None:
    """git lists no refs of it, and says nothing."""
    world.repository.git("pack-refs", "--all")
    world.repository.commit("main")
    world.repository.commit("loose")
    world.follows()
    os.chmod(world.repository.folder() / "refs/heads", 0)
    world.stops(UNTRUSTED, "refs/heads", front=LESS)


@pytest.mark.skipif(os.geteuid() == 0 and not shutil.which("setpriv"), reason="root reads all")
def test_new_refs_that_cannot_be_read(world: World) -> None:
    """The store has none of them, and wouldn't get them."""
    world.follows()
    world.repository.commit("below/new")
    os.chmod(world.repository.folder() / "refs/heads/below", 0)
    world.stops(UNTRUSTED, "refs/heads/below", front=LESS)


@needs_faults
def test_file_that_git_leaves_out_once(world: World) -> None:
    """Git says nothing of a file that it can't look at. The refs are listed again."""
    world.repository.commit("new")
    left = [errno.EIO]

    def judge(call: Call) -> int:
        is_listing = call.program().startswith("git for-each-ref")
        is_of_new = is_listing and call.place().endswith("refs/heads/new")
        return left.pop() if left and is_of_new else 0

    words = [*MIRROR, world.repository.path, world.store.path]
    how = {"env": world.environment, "cwd": world.folder}
    done = run_watched(words, ["newfstatat", "stat"], judge, b"", 60, **how)
    assert done.status == 0 and not left, done
    assert world.store.refs() == world.repository.refs()


def test_files_that_are_no_refs(world: World) -> None:
    """Those of locks, links to refs that aren't there, and those that another worktree has."""
    refs = world.repository.folder() / "refs"
    world.repository.git("symbolic-ref", "refs/heads/link", "refs/heads/none")
    for name in ("heads/main.lock", "heads/.main", "tags/v1.lock"):
        shutil.copy(refs / "heads/main", refs / name)
    tree = world.folder / "tree"
    world.repository.git("worktree", "add", "-q", "--detach", tree)
    for worktree in (world.repository, Repository(tree, world.environment)):
        for name in ("refs/bisect/bad", "refs/worktree/one"):
            worktree.git("update-ref", name, "refs/heads/main")
    world.follows()
    world.repository = Repository(tree, world.environment)
    world.follows()


def test_ref_that_comes_meanwhile(world: World, counted: Counted) -> None:
    """One that git lists after the look at its refs is none of which something is left."""
    heads = world.repository.folder() / "refs/heads"
    world.repository.delete(b"refs/heads/side")
    counted.write("gx", f'[ "$2" != refs ] || cp {heads}/main {heads}/side')
    world.follows(env=counted.environment)


def test_missing_history(world: World) -> None:
    """A commit below a new one is away."""
    below = world.repository.commit("main").decode()
    world.repository.commit("main")
    (world.repository.folder() / "objects" / below[:2] / below[2:]).unlink()
    world.stops(UNTRUSTED, below)


def test_no_refs(world: World) -> None:
    """An empty repository in place of the right one, and then one whose refs are really gone."""
    other = Repository(world.folder / "other", world.environment)
    world.stops(UNTRUSTED, "--allow-empty", source=other.path)
    held = world.repository.refs()
    world.repository.delete(*held)
    world.stops(UNTRUSTED, "--allow-empty")
    world.follows("--allow-empty")
    assert world.store.notes() == sorted((digits, ref) for ref, digits in held.items())


def test_shallow(world: World) -> None:
    words = ["clone", "-q", "--mirror", "--depth", "1", f"file://{world.repository.path}"]
    world.repository.git(*words, "../shallow")
    world.stops(UNTRUSTED, "shallow", source=world.folder / "shallow")


def test_names_of_sha256(world: World) -> None:
    other = Repository(world.folder / "other", world.environment, "--object-format=sha256")
    other.commit("main")
    world.stops(UNTRUSTED, "SHA-1", "sha256", source=other.path)


def test_repository_that_is_away(world: World) -> None:
    world.stops(UNTRUSTED, "away", source=world.folder / "away")


def test_variables_of_another_repository(world: World) -> None:
    """Those that git sets for a hook."""
    other = Repository(world.folder / "other", world.environment)
    other.commit("main")
    world.repository.commit("main")
    world.follows(env={**world.environment, "GIT_DIR": str(other.folder())})


def test_command_line(world: World) -> None:
    for words in [], ["one"], ["--keep-days=x", "one", "two"], ["one", "two", "three"]:
        done = run_program([*MIRROR, *words], env=world.environment)
        assert (done.status, done.out) == (USAGE, b""), done
    done = run_program([SCRIPTS / "gx-mirror", "--help"], env=world.environment)
    assert done.status == 0 and b"--allow-empty" in done.out
