"""Growing stores to which changes are appended: what stays of FILE, what stands behind it, and where
nothing is written or FILE is replaced as a whole.
"""

from __future__ import annotations

import os
import resource
import stat
import subprocess
from collections.abc import Callable
from pathlib import Path

import pytest

from growing_reading import verdict
from growing_texts import HEAD, GrowingText, Record, Run, live_runs, with_runs
from programs import Done, Program, counted, run_program
from store_files import (
    COMMITTED,
    COMMIT,
    NEW,
    OLD,
    STREAM,
    StoreFile,
    as_other,
    blob_stream,
    branch_stream,
    ended,
    named,
    needs_strace,
    needs_users,
    refused,
)

BRANCH = "refs/heads/main"
Way = Callable[[StoreFile], Done]


def record(kind: str, body: bytes) -> Record:
    return Record(kind.encode(), bytes.fromhex(named(kind, body)), body)


FIRST = [record(*each) for each in COMMITTED]
HELD = {BRANCH.encode(): FIRST[-1].name}


def written(*segments: tuple[list[Record], dict[bytes, bytes]]) -> bytes:
    """The text of another writer with these segments."""
    text = GrowingText()
    for records, refs in segments:
        text.refs = {}
        text.append(records, refs)
    return text.text()


GROWN = written((FIRST, HELD))
BLOB = record("blob", b"test content")


@pytest.fixture
def grown(store: StoreFile) -> StoreFile:
    """A growing store of three objects and a ref, in one segment."""
    store.path.write_bytes(GROWN)
    return store


def taken(store: StoreFile) -> Done:
    return store.take()


def dropped(store: StoreFile) -> Done:
    return store.run("drop", store.path, BRANCH)


def set_ref(store: StoreFile) -> Done:
    return store.run("set-ref", store.path, "refs/heads/old", COMMIT)


def checkpointed(store: StoreFile) -> Done:
    done = store.take(STREAM + b"checkpoint\nfoo\n")
    refused(done, "command 3: UnknownCommand")
    return Done(0, b"", b"")


def pushed(store: StoreFile) -> Done:
    lines = store.folder / "lines"
    lines.write_text(f"{'0' * 40} refs/heads/old\n")
    done = store.run("import", f"--push={lines}", store.path, stdin=reset("refs/heads/old"))
    lines.unlink()
    return done


def reset(ref: str) -> bytes:
    return f"reset {ref}\nfrom {COMMIT}\n\n".encode()


# each change, and the segment by which it is appended
OLD_TOO = {**HELD, b"refs/heads/old": FIRST[-1].name}
CHANGES: dict[str, tuple[Way, tuple[list[Record], dict[bytes, bytes]]]] = {
    "import": (taken, ([BLOB], HELD)),
    "checkpoint": (checkpointed, ([BLOB], HELD)),
    "push": (pushed, ([], OLD_TOO)),
    "set-ref": (set_ref, ([], OLD_TOO)),
    "drop": (dropped, ([], {})),
}


@pytest.mark.parametrize("name", CHANGES)
def test_appended(grown: StoreFile, name: str) -> None:
    """A change is appended as another writer appends it: FILE stays the file that it was, and the
    bytes behind its head stay."""
    change, segment = CHANGES[name]
    before = grown.path.stat()
    grown.made(change(grown), written((FIRST, HELD), segment))
    after, text = grown.path.stat(), grown.path.read_bytes()
    assert (after.st_ino, after.st_mode) == (before.st_ino, before.st_mode)
    assert text[HEAD : len(GROWN)] == GROWN[HEAD:]
    assert verdict(text) == grown.run("verify", grown.path).out.decode()


def test_left_behind(grown: StoreFile) -> None:
    """What a killed run left behind the end is gone."""
    grown.path.write_bytes(GROWN + b"left" * 5000)
    grown.made(grown.take(), written((FIRST, HELD), ([BLOB], HELD)))


def test_one_behind_the_other(gx: Program, tmp_path: Path) -> None:
    """Thirty imports, with refs that go and come, leave what they leave of version 2."""
    store, plain = tmp_path / "store", tmp_path / "plain"
    gx.prints("init", "--growing", store)
    gx.prints("init", plain)
    for number in range(30):
        for file in (store, plain):
            gx.prints("import", file, stdin=branch_stream(number))
            if number % 5 == 4:
                gx.prints("drop", file, f"refs/heads/branch{number - 2}")
                last = gx.prints("rev-parse", file, f"branch{number}").decode().strip()
                gx.prints("set-ref", "--force", file, "refs/heads/last", last)
        counted["imports one behind the other"] += 1
    assert gx.prints("verify", store).decode() == verdict(store.read_bytes())
    for words in (["export"], ["refs"], ["log", "--all"]):
        assert gx.prints(words[0], *words[1:], store) == gx.prints(words[0], *words[1:], plain)
    shown = "branch8:test.txt"
    assert gx.prints("show", store, shown) == gx.prints("show", plain, shown) == b"8\n"
    once = store.read_bytes()
    gx.prints("gc", store)
    assert len(store.read_bytes()) < len(once)
    gx.prints("gc", plain)
    gx.prints("grow", plain)
    assert store.read_bytes() == plain.read_bytes()


# ---- nothing new


def nothing(store: StoreFile) -> Done:
    return store.take(b"")


def held_already(store: StoreFile) -> Done:
    return store.take(blob_stream([b"version 1\n"]) + reset(BRANCH))


def set_as_it_is(store: StoreFile) -> Done:
    return store.run("set-ref", store.path, BRANCH, COMMIT)


def refused_at_last(store: StoreFile) -> Done:
    refused(store.take(reset(BRANCH) + b"checkpoint\nfoo\n"), "command 3: UnknownCommand")
    return Done(0, b"", b"")


NOTHING: dict[str, Way] = {
    "nothing": nothing,
    "held": held_already,
    "set": set_as_it_is,
    "checkpoint": refused_at_last,
}
KEPT = {"2": NEW, "3": GROWN, "3-behind": GROWN + b"left\n"}


def times(path: Path) -> tuple[int, ...]:
    found = path.stat()
    return found.st_ino, found.st_mtime_ns, found.st_ctime_ns, found.st_size


@pytest.mark.parametrize("name", NOTHING)
@pytest.mark.parametrize("text", KEPT.values(), ids=KEPT)
def test_nothing_new(store: StoreFile, text: bytes, name: str) -> None:
    """Where there is nothing new, nothing is written."""
    store.path.write_bytes(text)
    before = times(store.path)
    store.made(NOTHING[name](store), text)
    assert times(store.path) == before


def test_nothing_gone(store: StoreFile) -> None:
    """So it is where a collection leaves all of a text of version 2; others are written anew."""
    whole = NEW.replace(b"objects 4", b"objects 3").replace(
        b"blob 12 %s\ntest content\n" % BLOB.name.hex().encode(), b""
    )
    store.path.write_bytes(whole)
    before = times(store.path)
    store.made(store.run("gc", store.path), whole)
    assert times(store.path) == before
    store.path.write_bytes(written((FIRST, HELD), ([], HELD)))
    store.made(store.run("gc", store.path), GROWN)


def test_old_text(store: StoreFile) -> None:
    """A text of version 1 is written in version 2, also where there is nothing new."""
    before = store.path.stat().st_ino
    store.made(store.take(b""), NEW.replace(b"objects 4", b"objects 3").replace(
        b"blob 12 %s\ntest content\n" % BLOB.name.hex().encode(), b""
    ))
    assert store.path.stat().st_ino != before


# ---- files that are written as a whole


def test_empty(store: StoreFile) -> None:
    """A store without objects gets a text of one segment."""
    store.path.write_bytes(written(([], {})))
    before = store.path.stat().st_ino
    store.made(store.take(), written(([BLOB], {})))
    assert store.path.stat().st_ino != before


def test_large(grown: StoreFile) -> None:
    """So does one that gets more than it has."""
    body = b"x" * len(GROWN)
    grown.made(grown.take(blob_stream([body])), written(([*FIRST, record("blob", body)], HELD)))
    body = b"y" * (2 * len(GROWN))
    at = grown.path.stat().st_ino
    grown.take(blob_stream([body]))
    assert grown.path.stat().st_ino == at


def test_other_name(grown: StoreFile) -> None:
    """What FILE's other names show stays."""
    other = grown.folder / "other"
    other.hardlink_to(grown.path)
    grown.made(grown.take(), written(([*FIRST, BLOB], HELD)))
    assert other.read_bytes() == GROWN
    assert grown.path.stat().st_nlink == 1


@needs_users
def test_read_only(grown: StoreFile) -> None:
    """Who may write FILE's folder, and not FILE, replaces it."""
    grown.folder.chmod(0o777)
    grown.path.chmod(0o444)
    grown.made(grown.take(**as_other()), written(([*FIRST, BLOB], HELD)))


def test_link(grown: StoreFile) -> None:
    """A change is appended to the file that a link names."""
    link = grown.folder / "link"
    link.symlink_to("store")
    before = grown.path.stat().st_ino
    grown.made(grown.run("import", link, stdin=STREAM), written((FIRST, HELD), ([BLOB], HELD)))
    assert link.is_symlink()
    assert grown.path.stat().st_ino == before


def test_overtaken(grown: StoreFile) -> None:
    """Where somebody changes FILE meanwhile, nothing is appended to it, and the text stays beside."""
    child = grown.start_waiting()
    grown.path.write_bytes(OLD)
    refused(ended(child), "write failed")
    assert grown.holds(OLD)
    assert grown.next.read_bytes() == written(([*FIRST, BLOB], HELD))


@pytest.mark.parametrize("text", [NEW, GROWN], ids=["2", "3"])
def test_gone(store: StoreFile, text: bytes) -> None:
    """Where FILE is removed meanwhile, and nothing is new, the text stays beside."""
    store.path.write_bytes(text)
    child = store.start("import", store.path, stdin=subprocess.PIPE)
    child.stdin.write(b"progress half\n")
    child.stdin.flush()
    assert child.stdout.readline() == b"progress half\n"
    store.path.unlink()
    refused(ended(child), "write failed")
    assert store.names() == {"store.new"}
    assert store.next.read_bytes() == text


# ---- refusals


def limited(size: int) -> None:
    resource.setrlimit(resource.RLIMIT_FSIZE, (size, size))


@pytest.mark.parametrize("room", [-600, -1, 0, 1, 100, 300])
def test_limit(grown: StoreFile, room: int) -> None:
    """A limit on files that the appended text would pass leaves FILE as it was."""
    whole = written((FIRST, HELD), ([BLOB], HELD))
    most = len(GROWN) + room
    done = grown.take(preexec_fn=lambda: limited(most))
    grown.kept(done, "write failed", GROWN)
    assert grown.path.stat().st_mtime_ns
    grown.made(grown.take(preexec_fn=lambda: limited(len(whole))), whole)


def test_rows_of_many_runs(store: StoreFile) -> None:
    """A text that tells the same rows again and again doesn't get them all once more."""
    whole = written(([record("blob", b"%d" % number) for number in range(1000)], {}))
    run = live_runs(whole)[0]
    smaller = [Run(run.place, 2 * 3**step, bytes(32)) for step in range(6)]
    text = with_runs(whole, [run] * 1000 + smaller[::-1])
    store.path.write_bytes(text)
    store.kept(store.take(), "store: BadRows", text)


# calls that fail, and what is told of them: each before the last two leaves FILE as it was
MAY_HAVE = "; it may have what is new"
CALLS = {
    "fsync:1": ("the folder of ", ""),
    "fsync:2": ("", ""),
    "pwrite64:1": ("", ""),
    "pwrite64:2": ("", ""),
    "fsync:3": ("", ""),
    "pwrite64:3": ("", MAY_HAVE),
    "fsync:4": ("", MAY_HAVE),
}


@needs_strace
@pytest.mark.parametrize("at", CALLS)
def test_call_that_fails(grown: StoreFile, at: str) -> None:
    (call, number), (front, behind) = at.split(":"), CALLS[at]
    how = f"inject={call}:error=EIO:when={number}"
    front_words = ["strace", "-qq", "-o", os.devnull, "-e", f"trace={call}", "-e", how]
    words = [*front_words, grown.gx, "--explain", "import", grown.path]
    done = run_program(words, STREAM)
    told = f"gx: write failed\ngx: {front}{grown.path}: Input/output error (os error 5){behind}\n"
    assert done == Done(1, b"", told.encode())
    text = grown.path.read_bytes()
    assert behind or text[:119] + text[225:] == GROWN[:119] + GROWN[225:]
    objects = {"fsync:4": 4}.get(at, 3)
    assert f"objects {objects}\n" in grown.run("verify", grown.path).out.decode()
    grown.made(grown.take(), written((FIRST, HELD), ([BLOB], HELD)))


def test_mode(grown: StoreFile) -> None:
    """FILE keeps its permissions, and the next text is gone."""
    grown.path.chmod(0o640)
    grown.take()
    assert stat.S_IMODE(grown.path.stat().st_mode) == 0o640
    assert grown.names() == {"store"}
    assert os.access(grown.path, os.R_OK)
