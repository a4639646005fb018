"""The Python module beside git over texts of objects and bundles, and over commits that no stream
can say: signed ones, and merges of signed tags.
"""

from __future__ import annotations

import io
from collections.abc import Callable, Iterator
from pathlib import Path

import pytest

from libraries import built, ginlarch, shared  # noqa: F401
from programs import EMPTY_STORE, SCRIPTS, Program, printed, run_program

SIGNATURE = b"-----BEGIN PGP SIGNATURE-----\n\niQ==\n=aB\n-----END PGP SIGNATURE-----"
MERGED = b"object %s\ntype commit\ntag v9\ntagger T <t@x> 3 +0000\n\nv9\n" % (b"1" * 40)
WHO = b"A <a@x> 1700000000 +0100"

# a call of git in the history's folder
Git = Callable[..., bytes]


def header(name: bytes, told: bytes) -> bytes:
    """As git writes one."""
    return name + b" " + told.replace(b"\n", b"\n ") + b"\n"


HEADERS = header(b"encoding", b"ISO-8859-1") + b"".join(
    header(b"mergetag", told) for told in (MERGED[:-1], MERGED[:-4])
)
ALL = HEADERS + header(b"gpgsig", SIGNATURE) + b"bare\n"


@pytest.fixture(scope="module")
def signed(git: Git, tmp_path_factory: pytest.TempPathFactory) -> Path:
    """A commit with headers on one without."""
    top = tmp_path_factory.mktemp("signed")
    git("init", "-q", "-b", "main", cwd=top)
    (top / "a").write_bytes(b"a\n")
    git("add", "a", cwd=top)
    git("commit", "-q", "-m", "first", cwd=top)
    tree, first = git("rev-parse", "main^{tree}", "main", cwd=top).split()
    lines = b"tree %s\nparent %s\nauthor %s\ncommitter %s\n" % (tree, first, WHO, WHO)
    words = ["hash-object", "-t", "commit", "-w", "--literally", "--stdin"]
    made = git(*words, cwd=top, stdin=lines + ALL + b"\nsecond\n")
    git("update-ref", "refs/heads/main", made.decode().strip(), cwd=top)
    git("tag", "-m", "tagged", "v1", cwd=top)
    return top


@pytest.fixture(scope="module")
def objects(signed: Path) -> bytes:
    """Its objects and refs."""
    words = [SCRIPTS / "git-objects", signed]
    return printed(run_program(words), words)


@pytest.fixture
def repository(ginlarch, objects: bytes) -> Iterator:
    """It, in memory."""
    with ginlarch.Repository() as made:
        made.import_objects(objects)
        yield made


def test_headers_are_those_of_git(repository, git: Git, signed: Path) -> None:
    made = repository.commit("main")
    assert made.headers == ALL
    assert (made.encoding, made.message) == ("ISO-8859-1", b"second\n")
    assert made.header("gpgsig") == made.header(b"gpgsig") == SIGNATURE
    assert (made.header("mergetag"), made.header("bare")) == (MERGED[:-1], b"")
    assert (made.header("gpg"), made.header("iQ==")) == (None, None)
    names = [name for name, _ in made.header_items()]
    assert names == [b"encoding", b"mergetag", b"mergetag", b"gpgsig", b"bare"]
    assert dict(made.header_items())[b"mergetag"] == MERGED[:-4]
    told = git("log", "-1", "--format=%e", "main", cwd=signed)
    assert told.decode().strip() == made.encoding
    plain = repository.commit("main^")
    assert (plain.headers, plain.header("gpgsig"), plain.header_items()) == (b"", None, [])


@pytest.mark.parametrize("words", [["main"], ["main^!"]], ids=" ".join)
def test_signed_commit_is_in_no_stream(ginlarch, repository, words: list[str]) -> None:
    for changes in (False, True):
        with pytest.raises(ginlarch.faults.Unsupported):
            repository.export(changes=changes)
    with pytest.raises(ginlarch.faults.Unsupported):
        repository.export(None, *words)
    assert b"first" in repository.export(None, "main^")
    assert b"gpgsig" in repository.to_bytes()


# ---- texts of objects


def test_objects_are_those_of_the_program(
    repository, git: Git, gx: Program, signed: Path, objects: bytes, tmp_path: Path
) -> None:
    store = tmp_path / "store.gx"
    store.write_bytes(EMPTY_STORE)
    gx.prints("import", "--objects", store, stdin=objects)
    repository.save(tmp_path / "saved.gx")
    told = gx.prints("refs", store)
    assert told == gx.prints("refs", tmp_path / "saved.gx") == git("show-ref", cwd=signed)
    for name in git("rev-list", "--objects", "--no-object-names", "--all", cwd=signed).split():
        kind = git("cat-file", "-t", name.decode(), cwd=signed).strip().decode()
        body = git("cat-file", kind, name.decode(), cwd=signed)
        assert repository[name] == (kind, name.decode(), body)


def test_new_objects_are_counted(ginlarch, objects: bytes) -> None:
    with ginlarch.Repository() as made:
        count = made.import_objects(io.BytesIO(objects))
        assert count == len(made.log("main")) + 1 + 1 + 1
        assert made.import_objects(bytearray(objects)) == 0


def test_refused_text_leaves_all(ginlarch, repository, objects: bytes) -> None:
    faults = ginlarch.faults
    before = repository.to_bytes()
    new = b"587be6b4c3f93f93c489c0111bba5596147a26cb blob 2\nx\n\n"
    zeros, first = b"0" * 40, repository.name("main^").encode()
    refusals = [
        (faults.Dangling, 2, b"1" * 40 + b" refs/heads/a\n"),
        (faults.Missing, 2, b"1" * 40 + b" missing\n"),
        (faults.BadLine, 2, b"nonsense\n"),
        (faults.BadRefName, 2, zeros + b" refs/heads/a..b\n"),
        (faults.WrongKind, 2, new[:40] + b" refs/heads/a\n"),
        (faults.NotFastForward, 3, zeros + b" refs/tags/v1\n" + first + b" refs/heads/main\n"),
        (faults.NameMismatch, 2, new.replace(b"x\n", b"y\n")),
        (faults.TruncatedData, 2, new[:-2]),
    ]
    for fault, number, text in refusals:
        with pytest.raises(fault) as caught:
            repository.import_objects(new + text)
        assert (caught.value.number, caught.value.checkpoints) == (number, 0)
        assert repository.to_bytes() == before
    forced = refusals[5][2]
    assert repository.import_objects(new + forced, force=True) == 1
    assert repository.refs == {"refs/heads/main": first.decode()}


# ---- bundles


def test_bundle_is_cloned(repository, git: Git, signed: Path, tmp_path: Path) -> None:
    (tmp_path / "all.bundle").write_bytes(repository.bundle(head="main"))
    git("clone", "-q", "all.bundle", "copy", cwd=tmp_path)
    copy = tmp_path / "copy"
    for revision in ("HEAD", "refs/remotes/origin/main", "v1", "v1^{}", "HEAD^"):
        ours = revision.replace("refs/remotes/origin/", "").replace("HEAD", "main")
        assert git("rev-parse", revision, cwd=copy) == git("rev-parse", ours, cwd=signed)
    assert (copy / "a").read_bytes() == b"a\n"


def test_bundle_of_words_is_fetched(repository, git: Git, signed: Path, tmp_path: Path) -> None:
    git("init", "-q", "--bare", cwd=tmp_path)
    for words in (["main^..main"], ["^main^", "v1"]):
        (tmp_path / "new.bundle").write_bytes(repository.bundle(*words))
        needed = git("bundle", "list-heads", "new.bundle", cwd=tmp_path)
        name = "refs/heads/main" if words[0].endswith("main") else "refs/tags/v1"
        assert needed == git("show-ref", name, cwd=signed)
        head = (tmp_path / "new.bundle").read_bytes().split(b"\n\n", 1)[0]
        assert b"\n-" + git("rev-parse", "main^", cwd=signed).strip() in head


def test_bundle_is_refused(ginlarch, repository) -> None:
    faults = ginlarch.faults
    with pytest.raises(faults.UnknownRef) as caught:
        repository.bundle("main", "gone")
    assert caught.value.number == 2
    with pytest.raises(faults.UnknownRef) as caught:
        repository.bundle("main", head="gone")
    assert caught.value.number == 2
    with pytest.raises(faults.WrongKind):
        repository.bundle(head="v1")
    with pytest.raises(faults.Empty):
        repository.bundle("^main")
    assert repository.bundle("main") == repository.bundle("main")
