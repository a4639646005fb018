"""`gx import --objects`: texts of refs and objects, as git prints them, under their names."""

from __future__ import annotations

import hashlib
import os
import random
from collections.abc import Callable
from pathlib import Path
from typing import NamedTuple

import pytest

from programs import SCRIPTS, Done, Program, printed, run_program

ZEROS = b"0" * 40
WHO = b"A <a@x> 1 +0000"
IMPORT = ("import", "--objects")


class Object(NamedTuple):
    """An object, with its name in digits."""

    kind: bytes
    body: bytes

    @property
    def digits(self) -> bytes:
        head = b"%s %d\0" % (self.kind, len(self.body))
        return hashlib.sha1(head + self.body).hexdigest().encode()

    @property
    def text(self) -> bytes:
        return b"%s %s %d\n%s\n" % (self.digits, self.kind, len(self.body), self.body)


def ref(name: str, digits: bytes) -> bytes:
    return b"%s %s\n" % (digits, name.encode())


def tree(*entries: tuple[str, bytes, bytes]) -> Object:
    """A tree of modes, names and digits."""
    parts = [b"%s %s\0%s" % (m.encode(), n, bytes.fromhex(d.decode())) for m, n, d in entries]
    return Object(b"tree", b"".join(parts))


def commit(files: bytes, *parents: bytes, headers: bytes = b"", message: bytes = b"m\n") -> Object:
    lines = b"".join(b"parent %s\n" % parent for parent in parents)
    who = b"author %s\ncommitter %s\n" % (WHO, WHO)
    return Object(b"commit", b"tree %s\n%s%s%s\n%s" % (files, lines, who, headers, message))


def tag(name: bytes, target: bytes, kind: bytes = b"commit") -> Object:
    body = b"object %s\ntype %s\ntag %s\ntagger %s\n\nt\n" % (target, kind, name, WHO)
    return Object(b"tag", body)


BLOB = Object(b"blob", b"hi\n")
OTHER_BLOB = Object(b"blob", b"other\n")
TREE = tree(("100644", b"a", BLOB.digits))
FIRST = commit(TREE.digits)
SECOND = commit(TREE.digits, FIRST.digits)
SIDE = commit(TREE.digits, message=b"side\n")
TAG = tag(b"v1", SECOND.digits)
ALL = [TAG, SECOND, FIRST, TREE, BLOB]
MAIN, VERSION = ref("refs/heads/main", SECOND.digits), ref("refs/tags/v1", TAG.digits)
TEXT = MAIN + VERSION + b"".join(one.text for one in ALL)


@pytest.fixture(params=["plain", "growing"])
def store(request: pytest.FixtureRequest, gx: Program, tmp_path: Path) -> Path:
    path = tmp_path / "store"
    gx.prints("init", *(["--growing"] if request.param == "growing" else []), path)
    return path


def taken(gx: Program, store: Path, text: bytes, *options: str) -> bytes:
    """The text is taken; what is told of it."""
    done = gx(*IMPORT, *options, store, stdin=text)
    assert (done.status, done.out) == (0, b""), done.err
    gx.prints("verify", store)
    return done.err


def refused(gx: Program, store: Path, text: bytes, told: str, *options: str) -> None:
    """The text is refused with this, and the store is the very file that it was."""
    before = store.read_bytes()
    done = gx(*IMPORT, *options, store, stdin=text)
    assert (done.status, done.out, done.err.decode()) == (1, b"", f"gx: {told}\n")
    assert store.read_bytes() == before
    assert not Path(f"{store}.new").exists()


def test_objects_are_shown_under_the_names_that_git_has(gx: Program, store: Path) -> None:
    assert taken(gx, store, TEXT) == b""
    assert gx.prints("refs", store) == MAIN + VERSION
    for one in ALL:
        done = gx("batch", store, stdin=one.digits + b"\n")
        assert done.out == one.text
    assert taken(gx, store, TEXT + TEXT, "--report") == b"gx: objects: 0, refs: 0\n"


def test_report_tells_refs_and_objects(gx: Program, store: Path) -> None:
    told = taken(gx, store, TEXT, "--report")
    lines = b"%s %s%s %s" % (ZEROS, MAIN, ZEROS, VERSION)
    assert told == lines + b"gx: objects: 5, refs: 2\n"
    told = taken(gx, store, ref("refs/heads/main", ZEROS), "--report")
    assert told == b"%s %s refs/heads/main\ngx: objects: 0, refs: 1\n" % (SECOND.digits, ZEROS)


def test_any_order_of_items(gx: Program, store: Path, randoms: random.Random) -> None:
    items = [MAIN, VERSION, *(one.text for one in ALL)]
    for _ in range(5):
        randoms.shuffle(items)
        taken(gx, store, b"".join(items))
        assert gx.prints("refs", store) == MAIN + VERSION


def test_zeros_drop_a_ref_and_its_last_line_wins(gx: Program, store: Path) -> None:
    taken(gx, store, TEXT)
    taken(gx, store, ref("refs/heads/main", ZEROS) + ref("refs/heads/none", ZEROS))
    assert gx.prints("refs", store) == VERSION
    drop = ref("refs/heads/main", ZEROS)
    taken(gx, store, drop + MAIN + drop + ref("refs/heads/main", FIRST.digits))
    assert gx.prints("refs", store) == ref("refs/heads/main", FIRST.digits) + VERSION
    taken(gx, store, MAIN + drop)
    assert gx.prints("refs", store) == VERSION


@pytest.mark.parametrize(
    "text, told",
    [
        (TEXT[:-1], "object 7: TruncatedData"),
        (TEXT[: TEXT.index(b"v1")], "object 2: TruncatedData"),
        (b"%s blob 99999999999\nx\n" % BLOB.digits, "object 1: TruncatedData"),
        (MAIN + b"\n", "object 2: BadLine"),
        (BLOB.text.upper(), "object 1: BadLine"),
        (BLOB.text[1:], "object 1: BadLine"),
        (BLOB.text.replace(b" ", b"\t"), "object 1: BadLine"),
        (BLOB.text.replace(b"blob", b"bulb"), "object 1: BadLine"),
        (BLOB.text[:-1] + b"x", "object 1: BadLine"),
        (BLOB.text.replace(b"blob 3", b"blob 03"), "object 1: BadNumber"),
        (BLOB.text.replace(b"blob 3", b"blob -3"), "object 1: BadNumber"),
        (BLOB.text + b"%s missing\n" % TREE.digits, "object 2: Missing"),
        (b"%s refs/heads/a..b\n" % BLOB.digits, "object 1: BadRefName"),
        (BLOB.text + BLOB.text.replace(b"hi\n", b"ho\n"), "object 2: NameMismatch"),
        (b"a" * 64 + b" refs/heads/main\n", "object 1: BadLine"),
        (commit(TREE.digits, headers=b"gpgsig x").text, "object 1: BadObject"),
        (tree(("100664", b"a", BLOB.digits)).text + BLOB.text, "object 1: BadObject"),
        (tag(b"v1", BLOB.digits, b"blob").text + BLOB.text, "object 1: BadObject"),
        (MAIN + SECOND.text + TREE.text + BLOB.text, "object 2: Dangling"),
        (commit(BLOB.digits).text + BLOB.text, "object 1: Dangling"),
        (BLOB.text + MAIN, "object 2: Dangling"),
        (BLOB.text + ref("refs/heads/main", BLOB.digits), "object 2: WrongKind"),
        (TEXT + ref("refs/heads/v1", TAG.digits), "object 8: WrongKind"),
        (TEXT + ref("refs/tags/v2", TAG.digits), "object 8: WrongKind"),
    ],
)
def test_first_fault_is_told_by_its_item(
    gx: Program, store: Path, text: bytes, told: str
) -> None:
    taken(gx, store, ref("refs/heads/side", SIDE.digits) + SIDE.text + TREE.text + BLOB.text)
    refused(gx, store, text, told)


def test_name_is_not_held_twice(gx: Program, store: Path) -> None:
    """An object that is held under its name is the same one."""
    taken(gx, store, BLOB.text)
    taken(gx, store, BLOB.text + OTHER_BLOB.text + BLOB.text)


def test_branch_loses_commits_by_force_alone(gx: Program, store: Path) -> None:
    taken(gx, store, TEXT)
    back = ref("refs/heads/main", FIRST.digits)
    refused(gx, store, back, "object 1: NotFastForward")
    other = SIDE.text + MAIN + ref("refs/heads/main", SIDE.digits)
    refused(gx, store, other, "object 3: NotFastForward")
    taken(gx, store, back, "--force")
    assert gx.prints("refs", store) == back + VERSION
    taken(gx, store, other, "--force")
    assert gx.prints("refs", store) == ref("refs/heads/main", SIDE.digits) + VERSION


@pytest.mark.parametrize(
    "text, told",
    [
        (
            ref("refs/heads/main", FIRST.digits),
            b"refs/heads/main: from %s to %s" % (SECOND.digits, FIRST.digits),
        ),
        (
            ref("refs/heads/x", SIDE.digits),
            b"refs/heads/x names %s, which is neither held nor given" % SIDE.digits,
        ),
        (
            commit(OTHER_BLOB.digits).text,
            b"%s names %s, which is neither held nor given so"
            % (commit(OTHER_BLOB.digits).digits, OTHER_BLOB.digits),
        ),
    ],
)
def test_explanation(gx: Program, store: Path, text: bytes, told: bytes) -> None:
    taken(gx, store, TEXT)
    done = gx(*IMPORT, "--explain", store, stdin=text)
    assert done.status == 1
    assert done.err.split(b"\n")[1:] == [b"gx: " + told, b""]


def test_text_cut_between_items_lacks_nothing_or_is_refused(gx: Program, store: Path) -> None:
    whole = [MAIN, VERSION, *(one.text for one in ALL)]
    for count in range(1, len(whole)):
        done = gx(*IMPORT, store, stdin=b"".join(whole[:count]))
        assert done.status == 1 and b": Dangling\n" in done.err


def test_deep_history_newest_first(gx: Program, store: Path) -> None:
    """As deep as no stack of a thread is."""
    line = [commit(TREE.digits)]
    while len(line) < 30_000:
        line.append(commit(TREE.digits, line[-1].digits))
    text = ref("refs/heads/main", line[-1].digits)
    text += b"".join(one.text for one in reversed(line)) + TREE.text + BLOB.text
    taken(gx, store, text)
    assert gx.prints("refs", store) == ref("refs/heads/main", line[-1].digits)


# ---- real git


def objects_of(environment: dict[str, str], repository: Path, *store: Path) -> bytes:
    words = [SCRIPTS / "git-objects", repository, *store]
    return printed(run_program(words, env=environment), words)


@pytest.fixture
def repository(git: Callable[..., bytes], tmp_path: Path) -> Path:
    """A repository with two branches, a merge, directories and a tag."""
    folder = tmp_path / "repository"
    git("init", "-q", "-b", "main", folder)
    (folder / "d").mkdir()
    (folder / "d" / "f").write_text("one\n")
    git("add", ".", cwd=folder)
    git("commit", "-qm", "one", cwd=folder)
    git("checkout", "-qb", "side", cwd=folder)
    (folder / "g").write_bytes(b"\0two\n\n")
    git("add", ".", cwd=folder)
    git("commit", "-qm", "two", cwd=folder)
    git("checkout", "-q", "main", cwd=folder)
    (folder / "d" / "f").write_text("three\n")
    git("commit", "-qam", "three", cwd=folder)
    git("merge", "-q", "--no-edit", "side", cwd=folder)
    git("tag", "-am", "first", "v1", cwd=folder)
    return folder


def test_repository_comes_and_goes_back(
    gx: Program, git: Callable[..., bytes], environment, store: Path, repository: Path
) -> None:
    taken(gx, store, objects_of(environment, repository))
    refs = git("for-each-ref", "--format=%(objectname) %(refname)", cwd=repository)
    assert gx.prints("refs", store) == refs
    bundle = store.parent / "bundle"
    bundle.write_bytes(gx.prints("bundle", store))
    mirror = store.parent / "mirror"
    git("clone", "-q", "--mirror", bundle, mirror)
    assert git("for-each-ref", "--format=%(objectname) %(refname)", cwd=mirror) == refs
    reached = ("rev-list", "--objects", "--no-object-names", "--all")
    held, wanted = (git(*reached, cwd=folder).split() for folder in (mirror, repository))
    assert sorted(held) == sorted(wanted)


def test_increment_leaves_out_what_the_store_has(
    gx: Program, git: Callable[..., bytes], environment, store: Path, repository: Path
) -> None:
    taken(gx, store, objects_of(environment, repository))
    (repository / "h").write_text("four\n")
    git("add", ".", cwd=repository)
    git("commit", "-qm", "four", cwd=repository)
    text = objects_of(environment, repository, store)
    assert len(text) < len(objects_of(environment, repository)) - 500
    told = taken(gx, store, text, "--report")
    assert told.endswith(b"gx: objects: 3, refs: 1\n")
    refs = git("for-each-ref", "--format=%(objectname) %(refname)", cwd=repository)
    assert gx.prints("refs", store) == refs


def test_replaced_objects_come_as_they_are(
    gx: Program, git: Callable[..., bytes], environment, store: Path, repository: Path
) -> None:
    new = git("commit-tree", "-m", "new", "main^{tree}", cwd=repository).strip()
    git("replace", "main", new, cwd=repository)
    text = objects_of(environment, repository)
    git("replace", "-d", git("rev-parse", "main", cwd=repository).strip(), cwd=repository)
    done = gx(*IMPORT, store, stdin=text)
    # the ref of the replacement holds a commit, too
    assert done.status == 0, done.err
    main = git("rev-parse", "main", cwd=repository).strip()
    assert ref("refs/heads/main", main) in gx.prints("refs", store)


def test_shallow_repository_is_refused(
    gx: Program, git: Callable[..., bytes], environment, store: Path, repository: Path
) -> None:
    shallow = store.parent / "shallow"
    git("clone", "-q", "--depth=1", f"file://{repository}", shallow)
    done: Done = gx(*IMPORT, store, stdin=objects_of(environment, shallow))
    assert done.status == 1 and b": Dangling\n" in done.err


def test_random_texts(
    gx: Program, environment, store: Path, repository: Path, randoms: random.Random
) -> None:
    """A text with a bit turned, or cut off, is refused, or leaves a store that can be read."""
    text = bytearray(objects_of(environment, repository))
    tries = int(os.environ.get("TRIES", "40"))
    for _ in range(tries):
        changed = bytearray(text)
        changed[randoms.randrange(len(text))] ^= 1 << randoms.randrange(8)
        if randoms.random() < 0.3:
            del changed[randoms.randrange(len(text)) :]
        before = store.read_bytes()
        done = gx(*IMPORT, store, stdin=bytes(changed))
        assert done.status in (0, 1)
        gx.prints("verify", store)
        if done.status == 1:
            assert store.read_bytes() == before and done.err.startswith(b"gx: object ")
        gx.prints("init", store.parent / "next")
        os.replace(store.parent / "next", store)
