"""What an adapted stream loses, and how that is told."""

from __future__ import annotations

from collections.abc import Callable
from pathlib import Path

import pytest

from programs import Program

Git = Callable[..., bytes]
NULL = b"0" * 40
LAST = b"gx: adapt: no done went out, since lines are lost\n"


@pytest.fixture
def deleting(git: Git, tmp_path: Path) -> bytes:
    """A stream of git's that sets a branch and deletes another one."""
    folder = tmp_path / "repository"
    git("init", "-q", "-b", "main", folder)
    git("commit", "-q", "--allow-empty", "-m", "m", cwd=folder)
    refspecs = ["refs/heads/*:refs/heads/*", ":refs/heads/gone"]
    words = [word for refspec in refspecs for word in ("--refspec", refspec)]
    return git("fast-export", "--all", *words, "--use-done-feature", cwd=folder)


def test_deleted_ref_is_named_and_done_is_refused(gx: Program, new_store, deleting: bytes) -> None:
    assert b"reset refs/heads/gone\nfrom %s\n" % NULL in deleting
    store = new_store(b"commit refs/heads/gone\ncommitter A <a@b> 1 +0000\ndata 1\ng\n")
    before = store.read_bytes()
    adapted = gx("adapt", stdin=deleting)
    assert adapted.status == 3
    assert adapted.err.endswith(b"gx: adapt: lost: reset refs/heads/gone\n" + LAST)
    assert b"done\n" not in adapted.out.replace(b"feature done\n", b"")
    for words in [["import", "--done"], ["import"]]:  # the stream itself asks for done, too
        done = gx(*words, store, stdin=adapted.out)
        assert (done.status, done.err[-12:]) == (1, b"MissingDone\n")
        assert store.read_bytes() == before


def test_what_a_checkpoint_published_stays(gx: Program, new_store) -> None:
    commit = b"commit refs/heads/x\ncommitter A <a@b> 1 +0000\ndata 1\nx\n"
    deletion = b"reset refs/heads/x\nfrom " + NULL + b"\n\n"
    adapted = gx("adapt", stdin=commit + b"checkpoint\n\n" + deletion + b"done\n")
    assert adapted.status == 3
    store = new_store()
    done = gx("import", "--done", store, stdin=adapted.out)
    assert (done.status, done.err[-12:]) == (1, b"MissingDone\n")
    assert gx.prints("refs", store).endswith(b" refs/heads/x\n")


@pytest.mark.parametrize("option", [b"import-marks", b"import-marks-if-exists", b"export-marks"])
def test_files_of_marks_are_lost(gx: Program, option: bytes) -> None:
    line = b"feature " + option + b"=m"
    adapted = gx("adapt", stdin=line + b"\nblob\ndata 0\n\ndone\n")
    assert (adapted.status, adapted.out) == (3, b"blob\ndata 0\n\n")
    assert adapted.err.endswith(b"gx: adapt: lost: " + line + b"\n" + LAST)


@pytest.mark.parametrize(
    "stream",
    [
        b"get-mark :1\ndone\n",
        b"feature relative-marks\nfeature no-relative-marks\nfeature notes\ndone\n",
        b"commit refs/heads/a\nfrom " + NULL + b"\ndone\n",
        b"done\nfeature export-marks=m\n",
    ],
)
def test_other_lines_lose_nothing(gx: Program, stream: bytes) -> None:
    adapted = gx("adapt", stdin=stream)
    assert adapted.status == 0
    assert b"\ndone\n" in b"\n" + adapted.out
    assert b"lost" not in adapted.err


def test_report_of_an_import_counts_identities_without_a_name(gx: Program, new_store) -> None:
    stream = (
        b"commit refs/heads/main\nauthor <a@b> 1 +0000\ncommitter <a@b> 1 +0000\n"
        b"data 16\ncommitter <a> 1\n\n"
        b"commit refs/heads/main\ncommitter  <a@b> 1 +0000\ndata <<END\nauthor <a> 1\nEND\n"
        b"tag v\nfrom refs/heads/main\ntagger <a@b> 1 +0000\ndata 0\n"
    )
    told = b"gx: identities without a name, which git gives a space: 3\n"
    done = gx("import", "--report", new_store(), stdin=stream)
    assert (done.status, done.err.endswith(told)) == (0, True)
    mended = gx.prints("adapt", stdin=stream)
    again = gx("import", "--report", new_store(name="mended"), stdin=mended)
    assert b"identities" not in again.err
    assert gx("import", new_store(name="unasked"), stdin=stream).err == b""
