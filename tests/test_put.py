"""Texts that another program made, as `put` takes them, and how long a command waits for others."""

from __future__ import annotations

import fcntl
import os
import time
from pathlib import Path

import pytest

from programs import EMPTY_STORE, Done, Program
from store_files import NEW, OLD, STREAM, StoreFile, refused

SECOND = 10**9


def stamp_of(path: Path) -> str:
    found = path.stat()
    return f"{found.st_dev}:{found.st_ino}:{found.st_size}:{found.st_mtime_ns}"


def put(store: StoreFile, stamp: str, text: bytes = NEW) -> Done:
    return store.run("put", f"--expect-stamp={stamp}", store.path, stdin=text)


@pytest.mark.parametrize(
    "nanoseconds",
    [1700000000 * SECOND + 123456789, 1, 0, -1, -SECOND, -3 * SECOND // 2],
    ids=str,
)
def test_stamp_of_any_time(store: StoreFile, nanoseconds: int) -> None:
    """A store file may be of a time before 1970, too."""
    os.utime(store.path, ns=(nanoseconds, nanoseconds))
    assert store.path.stat().st_mtime_ns == nanoseconds
    done = put(store, stamp_of(store.path))
    assert done == Done(0, f"{stamp_of(store.path)}\n".encode(), b"")
    assert store.holds_alone(NEW)


@pytest.mark.parametrize("part", range(4))
def test_stamp_of_another_file(store: StoreFile, part: int) -> None:
    numbers = [int(number) for number in stamp_of(store.path).split(":")]
    numbers[part] += 1
    store.kept(put(store, ":".join(map(str, numbers))), "store changed")


@pytest.mark.parametrize("stamp", ["", "1", "1:2:3", "1:2:3:x", "1:2:3:4:5", "-1:2:3:4"])
def test_what_is_no_stamp(store: StoreFile, stamp: str) -> None:
    store.kept(put(store, stamp), "bad stamp")


def test_new_store(store: StoreFile) -> None:
    store.kept(put(store, "new"), "store exists")
    store.path.unlink()
    done = put(store, "new")
    assert done == Done(0, f"{stamp_of(store.path)}\n".encode(), b"")
    assert store.holds_alone(NEW)


@pytest.mark.parametrize(
    "words, text",
    [
        (["init", "FILE"], EMPTY_STORE),
        (["import", "FILE"], NEW),
        (["import", "--push=/dev/null", "FILE"], NEW),
        (["drop", "FILE", "refs/heads/main"], None),
        (["gc", "FILE"], None),
        (["put", "--expect-stamp=STAMP", "FILE"], NEW),
    ],
    ids=lambda value: " ".join(value) if isinstance(value, list) else "",
)
def test_wait(store: StoreFile, words: list[str], text: bytes | None) -> None:
    """Each command that writes waits as long as it is told, leaves the store as it is then, and has
    its turn once the other one is gone."""
    given = NEW if words[0] == "put" else STREAM
    named = {"FILE": store.path, "--expect-stamp=STAMP": f"--expect-stamp={stamp_of(store.path)}"}
    command, *rest = (named.get(word, word) for word in words)
    if command == "init":
        store.path.unlink()
    with store.next.open("wb") as other:
        fcntl.flock(other, fcntl.LOCK_EX)
        for seconds in (0, 1):
            begun = time.monotonic()
            done = store.run(command, f"--wait={seconds}", *rest, stdin=given, timeout=30)
            refused(done, "lock failed")
            assert time.monotonic() - begun >= seconds
        assert store.next.exists()
    assert not store.path.exists() if command == "init" else store.holds(OLD)
    done = store.run(command, "--wait=0", *rest, stdin=given)
    assert (done.status, done.err) == (0, b"")
    assert text is None or store.holds_alone(text)


def test_missing_file_is_a_change(store: StoreFile) -> None:
    before = stamp_of(store.path)
    store.path.unlink()
    assert put(store, before) == Done(1, b"", b"gx: store changed\n")
    assert list(store.folder.iterdir()) == []


@pytest.mark.parametrize("length", [0, 1, 40, len(NEW) - 1])
def test_text_that_is_cut_off_is_no_store(store: StoreFile, length: int) -> None:
    done = put(store, stamp_of(store.path), NEW[:length])
    assert (done.status, done.out, done.err[:10]) == (1, b"", b"gx: store:")
    assert store.holds_alone(OLD)


@pytest.mark.parametrize("length", [251, 252, 255])
@pytest.mark.parametrize("word", ["init", "import", "drop", "gc", "put"])
def test_long_name_is_told(gx: Program, tmp_path: Path, word: str, length: int) -> None:
    """FILE.new would have more bytes than a name may have. Nothing is made, and FILE can be read."""
    path = tmp_path / ("s" * length)
    if word != "init":
        path.write_bytes(OLD)
    stamp = [f"--expect-stamp={stamp_of(path)}"] if word == "put" else []
    refs = ["refs/heads/main"] if word == "drop" else []
    given = NEW if word == "put" else STREAM
    done = gx("--explain", word, *stamp, path, *refs, stdin=given)
    if length == 251:
        assert (done.status, done.err) == (0, b"")
        return
    cause = "FILE.new would have more bytes than the 255 of a name"
    assert done == Done(1, b"", f"gx: name too long\ngx: {path}: {cause}\n".encode())
    assert [made.read_bytes() for made in tmp_path.iterdir()] == ([] if word == "init" else [OLD])
    if word != "init":
        assert gx("refs", path).status == 0
