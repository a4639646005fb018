"""Whose a store is, and who may read it: no run opens it to anybody who was shut out."""

from __future__ import annotations

import os
import struct
import subprocess
from pathlib import Path

import pytest

from programs import Done, run_program
from store_files import (
    NEW,
    OLD,
    STREAM,
    StoreFile,
    as_other,
    ended,
    is_root,
    mode_of,
    needs_strace,
    needs_users,
)

UMASKS = [0o000, 0o002, 0o022, 0o077]


def rights_of(path: Path) -> tuple[int, int, int]:
    """The mode, the owner and the group of a file."""
    told = path.stat()
    return mode_of(path), told.st_uid, told.st_gid


def as_user(user: int, group: int, *groups: int) -> dict:
    return {"user": user, "group": group, "extra_groups": list(groups)}


def own(store: StoreFile, mode: int) -> None:
    """Gives the store to a user 1001 with the group 2001."""
    os.chown(store.path, 1001, 2001)
    store.path.chmod(mode)


def told_of(store: StoreFile) -> bytes:
    return f"gx: {store.path}: permissions were left out\n".encode()


@pytest.mark.parametrize("mode", [0o600, 0o644, 0o444, 0o400], ids=oct)
@pytest.mark.parametrize("umask", UMASKS, ids=oct)
def test_mode_is_kept(store: StoreFile, umask: int, mode: int) -> None:
    store.path.chmod(mode)
    store.made(store.take(umask=umask), NEW)
    assert mode_of(store.path) == mode


@pytest.mark.parametrize("umask", UMASKS, ids=oct)
def test_init_follows_the_umask(store: StoreFile, umask: int) -> None:
    made = store.folder / "made"
    assert store.run("init", made, umask=umask) == Done(0, b"", b"")
    assert mode_of(made) == 0o666 & ~umask


def test_set_user_and_group_bits_go(store: StoreFile) -> None:
    store.path.chmod(0o6755)
    store.take(umask=0o022)
    assert mode_of(store.path) == 0o755


@pytest.mark.parametrize(
    "mode, umask, left",
    [
        pytest.param(0o660, 0o022, 0o600, id="may be a mask"),
        pytest.param(0o664, 0o022, 0o644, id="but for those that others have, too"),
        pytest.param(0o664, 0o002, 0o664, id="under a umask that leaves the group all"),
    ],
)
def test_group_bits(store: StoreFile, mode: int, umask: int, left: int) -> None:
    """The group of new files, which nobody chose: its bits may be the mask of an access control
    list.
    """
    store.path.chmod(mode)
    done = store.take(umask=umask)
    assert mode_of(store.path) == left
    assert done == Done(0, b"", b"" if left == mode else told_of(store))


def test_group_bits_of_a_shared_folder(store: StoreFile) -> None:
    store.path.chmod(0o660)
    store.folder.chmod(0o2755)
    store.made(store.take(umask=0o022), NEW)
    assert mode_of(store.path) == 0o660


def test_access_control_list(store: StoreFile) -> None:
    """The mask of a list isn't handed to the group."""
    store.path.chmod(0o600)
    # user::rw- user:65534:rw- group::--- mask::rw- other::---
    entries = ((1, 6, -1), (2, 6, 65534), (4, 0, -1), (16, 6, -1), (32, 0, -1))
    packed = struct.pack("<I", 2) + b"".join(struct.pack("<HHi", *entry) for entry in entries)
    try:
        os.setxattr(store.path, "system.posix_acl_access", packed)
    except OSError as fault:
        pytest.skip(f"no access control list can be made here: {fault}")
    assert mode_of(store.path) == 0o660, "a list shows its mask as the group bits"
    store.take(umask=0o022)
    assert mode_of(store.path) == 0o600


@needs_users
@pytest.mark.parametrize("mode", [0o600, 0o640, 0o660, 0o664, 0o604], ids=oct)
def test_root_keeps_the_owner(store: StoreFile, mode: int) -> None:
    own(store, mode)
    store.take(umask=0o077)
    assert rights_of(store.path) == (mode, 1001, 2001)


@needs_users
def test_member_of_the_group(store: StoreFile) -> None:
    own(store, 0o660)
    store.folder.chmod(0o777)
    store.made(store.take(**as_user(1002, 3000, 2001)), NEW)
    assert rights_of(store.path) == (0o660, 1002, 2001)


@needs_users
@pytest.mark.parametrize(
    "mode, left", [(0o664, 0o644), (0o604, 0o600), (0o646, 0o644), (0o644, 0o644)]
)
def test_another_user(store: StoreFile, mode: int, left: int) -> None:
    """A user who may read a store puts one of their own in its place, and opens it to nobody."""
    own(store, mode)
    store.folder.chmod(0o777)
    done = store.take(umask=0o022, **as_user(1002, 3000, 3000))
    assert done == Done(0, b"", b"" if left == mode else told_of(store))
    assert store.holds_alone(NEW)
    assert rights_of(store.path) == (left, 1002, 3000)


@pytest.mark.parametrize("umask", UMASKS, ids=oct)
def test_what_is_written_meanwhile(store: StoreFile, umask: int) -> None:
    """While an import waits for its input, the next text is its user's alone."""
    store.folder.chmod(0o777)
    store.path.chmod(0o600)
    child = store.start_waiting(umask=umask)
    assert mode_of(store.next) == 0o600
    if is_root():
        assert (
            run_program(["cat", store.next], **as_other()).status != 0
        ), "another user can't read it"
        assert (
            run_program(["flock", "-n", store.next, "true"], **as_other()).status != 0
        ), "nor lock it"
    store.made(ended(child), NEW)


@needs_strace
def test_made_private(store: StoreFile, tmp_path: Path) -> None:
    """The file is its user's alone from the call that makes it."""
    store.path.chmod(0o600)
    trace = tmp_path / "trace"
    words = ["strace", "-qq", "-o", trace, "-e", "trace=openat", store.gx, "import", store.path]
    assert run_program(words, STREAM).status == 0
    calls = [line for line in trace.read_text().splitlines() if "store.new" in line]
    assert any("O_CREAT|O_EXCL" in line and ", 0600) = " in line for line in calls), calls


@needs_users
def test_stranger_holds_up_no_run(store: StoreFile) -> None:
    """Somebody who may not read a store has made the next text's file, and locks it."""
    own(store, 0o600)
    store.folder.chmod(0o1777)
    words = [
        "sh",
        "-c",
        ': > "$1" && exec flock "$1" sh -c "echo locked && exec sleep 60"',
        "sh",
        store.next,
    ]
    with subprocess.Popen(
        words, stdout=subprocess.PIPE, start_new_session=True, **as_user(1002, 3000, 3000)
    ) as holder:
        assert holder.stdout.readline() == b"locked\n"
        done = store.run(
            "--explain", "import", store.path, stdin=STREAM, timeout=30, **as_user(1001, 2001, 2001)
        )
        os.killpg(holder.pid, 9)
    cause = f"gx: {store.next}: made by a user who has no rights on the store\n"
    assert done == Done(1, b"", b"gx: lock failed\n" + cause.encode())
    assert store.holds(OLD)
