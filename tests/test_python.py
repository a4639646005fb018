"""The Python module beside git, over histories that git exports, and what becomes of stores that
it saves.
"""

from __future__ import annotations

import fcntl
import io
import os
import shutil
import struct
import subprocess
import sys
import tarfile
import threading
import warnings
from collections.abc import Callable, Iterator
from pathlib import Path
from types import ModuleType

import pytest

from libraries import built, ginlarch, shared  # noqa: F401
from programs import EMPTY_STORE, TOP, Done, Program, run_program
from store_files import mode_of, needs_users

# a commit with an encoding, a submodule, a name with odd bytes, and a message without an LF
ODD = (
    b"commit refs/heads/odd\ncommitter C <c@x> 1700000009 -0230\nencoding ISO-8859-1\n"
    b"data 3\n\xe4\n\n"
    b"M 160000 1111111111111111111111111111111111111111 sub\n"
    b'M 100644 inline "d/\\303\\244\\377\\t\\n"\ndata 0\n\n'
    b"commit refs/heads/odd\ncommitter C <c@x> 1700000010 -0230\ndata 4\nlast\n"
)
MORE = b"reset refs/heads/more\nfrom refs/heads/main\n\n"
REVISIONS = "main topic v1 v1^{} main^2 main~2 main:doc main:doc/README main^{tree}".split()
RANGES = ["main", "v1..main", "main ^topic", "main...topic", "main^!", "topic v1"]
LISTED = ["main", "topic", "v1", "main:doc", "main~2^{tree}", "odd"]

# a call of git in the history's folder
Git = Callable[..., bytes]


@pytest.fixture(scope="module")
def history(git: Git, tmp_path_factory: pytest.TempPathFactory) -> Path:
    """Branches that are merged, a tag, files of all modes, and odd bytes."""
    top = tmp_path_factory.mktemp("history")

    def commit(message: str) -> None:
        git("add", "-A", cwd=top)
        git("commit", "-q", "-m", message, cwd=top)

    git("init", "-q", "-b", "main", cwd=top)
    (top / "doc").mkdir()
    (top / "doc" / "README").write_bytes(b"one\n")
    (top / "run").write_bytes(b"#!/bin/sh\n")
    (top / "run").chmod(0o755)
    (top / "link").symlink_to("doc/README")
    commit("one")
    git("tag", "-m", "first", "v1", cwd=top)
    git("checkout", "-q", "-b", "topic", cwd=top)
    (top / "bytes").write_bytes(bytes(range(256)) * 300)
    commit("two")
    git("checkout", "-q", "main", cwd=top)
    (top / "doc" / "README").write_bytes(b"three\n")
    commit("three")
    git("merge", "-q", "--no-edit", "topic", cwd=top)
    git("fast-import", "--quiet", cwd=top, stdin=ODD)
    return top


@pytest.fixture(scope="module")
def stream(git: Git, history: Path) -> bytes:
    return git("fast-export", "--all", "--use-done-feature", "--reencode=no", cwd=history)


@pytest.fixture
def repository(ginlarch: ModuleType, stream: bytes) -> Iterator:
    with ginlarch.Repository() as made:
        made.import_stream(stream, done=True)
        yield made


@pytest.fixture(params=[2, 3], ids="version {}".format)
def saved(request, repository, gx_import: Callable[..., Path], tmp_path: Path) -> Path:
    """A store file of the history: of version 2 by gx, and of version 3 as the module makes it."""
    if request.param == 2:
        return gx_import("store.gx")
    repository.save(tmp_path / "store.gx")
    return tmp_path / "store.gx"


@pytest.fixture
def gx_import(gx: Program, stream: bytes, tmp_path: Path) -> Callable[..., Path]:
    """Makes a store of version 2 of the history."""

    def make(name: str) -> Path:
        (tmp_path / name).write_bytes(EMPTY_STORE)
        gx.prints("import", "--done", tmp_path / name, stdin=stream)
        return tmp_path / name

    return make


# ---- beside git


def test_objects_are_those_of_git(ginlarch, git: Git, history: Path, stream: bytes) -> None:
    repository = ginlarch.Repository()
    report = repository.import_stream(stream, done=True)
    listed = git("cat-file", "--batch-all-objects", "--batch-check", cwd=history).decode()
    assert report.objects == listed.count("\n")
    for line in listed.splitlines():
        name, kind, size = line.split(" ")
        shown = repository[name]
        assert (shown.kind, shown.name, len(shown.body)) == (kind, name, int(size))
        assert shown.body == git("cat-file", kind, name, cwd=history)


@pytest.mark.parametrize("revision", REVISIONS)
def test_revision_is_that_of_git(repository, git: Git, history: Path, revision: str) -> None:
    assert repository.name(revision) == git("rev-parse", revision, cwd=history).decode().strip()


@pytest.mark.parametrize("words", RANGES)
def test_log_is_that_of_git(repository, git: Git, history: Path, words: str) -> None:
    listed = git("rev-list", *words.split(), cwd=history).decode().split()
    assert sorted(repository.log(*words.split())) == sorted(listed)


def test_refs_are_those_of_git(repository, git: Git, history: Path) -> None:
    shown = git("show-ref", cwd=history).decode().splitlines()
    assert repository.refs == {name: digits for digits, name in (line.split(" ") for line in shown)}


def test_files_are_those_of_git(repository, git: Git, history: Path) -> None:
    for line in git("ls-tree", "-r", "main", cwd=history).decode().splitlines():
        front, path = line.split("\t")
        mode, _, name = front.split(" ")
        entry = repository.entry("main", path)
        data = git("cat-file", "blob", name, cwd=history)
        assert (entry.mode, entry.data) == (int(mode, 8), data)


@pytest.mark.parametrize("recursive", [False, True])
@pytest.mark.parametrize("revision", LISTED)
def test_listing_is_that_of_git(
    repository, git: Git, history: Path, revision: str, recursive: bool
) -> None:
    listed = git("ls-tree", "-z", *(["-r"] if recursive else []), revision, cwd=history)
    shown = [
        f"{entry.mode:06o} {entry.kind} {entry.name}\t{entry.path}\0"
        for entry in repository.ls(revision, recursive)
    ]
    assert "".join(shown).encode("utf-8", "surrogateescape") == listed


def test_commits_are_those_of_git(repository, git: Git, history: Path) -> None:
    for revision in git("rev-list", "--all", cwd=history).decode().split() + ["v1", "odd"]:
        made = repository.commit(revision)
        head, message = git("cat-file", "commit", revision, cwd=history).split(b"\n\n", 1)
        lines = [f"tree {made.tree}".encode()]
        lines += [f"parent {name}".encode() for name in made.parents]
        lines += [b"author " + made.author, b"committer " + made.committer]
        lines += [] if made.encoding is None else [b"encoding " + made.encoding.encode()]
        assert (b"\n".join(lines), made.message) == (head, message)
        rest = (head + b"\n").split(b"\ncommitter " + made.committer + b"\n", 1)[1]
        told = made.encoding and made.encoding.encode()
        assert (made.headers, made.header("encoding")) == (rest, told)


def test_tags_are_those_of_git(ginlarch, repository, git: Git, history: Path) -> None:
    head, message = git("cat-file", "tag", "v1", cwd=history).split(b"\n\n", 1)
    target, _, name, tagger = (line.split(b" ", 1)[1] for line in head.split(b"\n"))
    assert repository.tag("v1") == (target.decode(), name.decode(), tagger, message)
    repository.import_stream(b"tag bare\nfrom refs/heads/main^0\ndata 0\n")
    assert repository.tag("bare") == (repository.name("main"), "bare", None, b"")
    for other in ["v1^{}", "main:doc", "main:run"]:
        with pytest.raises(ginlarch.faults.WrongKind):
            repository.tag(other)


@pytest.mark.parametrize("words", ["", "main topic v1 odd", None], ids=["all", "words", "files"])
def test_export_comes_back_in_git(
    repository, git: Git, history: Path, tmp_path: Path, words: str | None
) -> None:
    if words is None:
        exported = repository.export(changes=False)
    else:
        exported = repository.export(None, *words.split())
    git("init", "-q", "--bare", cwd=tmp_path)
    git("fast-import", "--quiet", cwd=tmp_path, stdin=exported)
    assert git("show-ref", cwd=tmp_path) == git("show-ref", cwd=history)


def test_archive_is_that_of_git(repository, git: Git, history: Path) -> None:
    made = repository.archive("main", "p/")
    assert made == git("archive", "--prefix=p/", "main", cwd=history)
    with tarfile.open(fileobj=io.BytesIO(made)) as archive:
        assert "p/doc/README" in archive.getnames()


# ---- refusals


def test_refusals_have_their_words(ginlarch, repository) -> None:
    faults = ginlarch.faults
    with pytest.raises(faults.UnknownRef) as caught:
        repository.log("main", "gone")
    assert caught.value.number == 2
    with pytest.raises(faults.BadRevision):
        repository["a..b"]
    with pytest.raises(faults.NoParent):
        repository["main^9"]
    with pytest.raises(faults.NoSuchPath):
        repository["main:gone"]
    with pytest.raises(faults.WrongKind):
        repository.ls("main:run")
    with pytest.raises(faults.WrongKind):
        repository.commit("main:doc")
    with pytest.raises(faults.MissingDone):
        repository.import_stream(b"progress hello\n", done=True)
    with pytest.raises(ginlarch.Refused) as caught:
        repository.import_stream(b"checkpoint\nnonsense\n")
    told = caught.value
    assert (told.word, told.number, told.checkpoints) == ("UnknownCommand", 2, 1)
    with pytest.raises(faults.BadMagic):
        ginlarch.Repository.from_bytes(b"no store\n")


@pytest.mark.parametrize("call, number", [("commit", 7), ("tag", 4)])
@pytest.mark.parametrize("revision", [b"main", b"gone"])
def test_number_of_no_field_is_refused(
    ginlarch, repository, revision: bytes, call: str, number: int
) -> None:
    with pytest.raises(ginlarch.Refused) as caught:
        repository._handle.ask(call, revision, number)
    assert caught.value.word == "UnknownField"


def test_closed_repository_is_refused(ginlarch) -> None:
    with ginlarch.Repository() as closed:
        assert closed.refs == {}
    with pytest.raises(ginlarch.Closed):
        closed.refs


def test_another_thread_is_refused(repository) -> None:
    raised = []

    def ask() -> None:
        try:
            repository.refs
        except RuntimeError as error:
            raised.append(error)

    thread = threading.Thread(target=ask)
    thread.start()
    thread.join()
    assert len(raised) == 1


@pytest.mark.parametrize("revision", [40, None, 1.5, ["main"]])
def test_only_texts_are_revisions(repository, revision) -> None:
    with pytest.raises(TypeError):
        repository.name(revision)


# ---- range words stay with their call


@pytest.mark.parametrize(
    "words, raised",
    [
        (["main", None], TypeError),
        (["main", 7], TypeError),
        (["main", "\ud800"], UnicodeEncodeError),
        (["main", "gone"], Exception),
        (["main", "a..b..c"], Exception),
        (["main", "gone", "side"], Exception),
    ],
    ids=repr,
)
@pytest.mark.parametrize("call", ["log", "export"])
def test_words_of_a_refused_call_are_dropped(
    repository, call: str, words: list, raised: type
) -> None:
    before = repository.log("topic"), repository.export(None, "topic")
    ask = repository.log if call == "log" else lambda *words: repository.export(None, *words)
    with pytest.raises(raised):
        ask(*words)
    assert (repository.log("topic"), repository.export(None, "topic")) == before


@pytest.mark.parametrize("raised", [KeyboardInterrupt, MemoryError, SystemExit])
@pytest.mark.parametrize("at", ["word", "walk", "range", "answer"])
def test_words_of_an_ended_call_are_dropped(
    ginlarch, repository, monkeypatch, raised: type, at: str
) -> None:
    """Whatever ends a call: behind its second word, before its last step, or behind that."""
    before = repository.log("topic"), repository.export(None, "topic")
    real, words = ginlarch.calls.Handle._call, []

    def ending(handle, name: str, *arguments) -> None:
        words.append(name)
        is_last = name != "word"
        if not is_last or at == "answer":
            real(handle, name, *arguments)
        if is_last or (at == "word" and len(words) == 2):
            raise raised(name)

    with monkeypatch.context() as patched:
        patched.setattr(ginlarch.calls.Handle, "_call", ending)
        with pytest.raises(raised):
            if at == "range":
                repository.export(None, "main", "odd")
            else:
                repository.log("main", "odd")
    assert (repository.log("topic"), repository.export(None, "topic")) == before


# ---- answers of any size


@pytest.fixture(scope="module")
def false_library(tmp_path_factory: pytest.TempPathFactory) -> Path:
    """One that tells as many bytes as it is told to."""
    made = tmp_path_factory.mktemp("false") / "large.so"
    source = TOP / "tests/library/large.c"
    subprocess.run([os.environ.get("CC", "cc"), "-shared", "-fPIC", "-o", made, source], check=True)
    return made


def asked(library: Path, answer: int, code: str, **variables: str) -> Done:
    """What Python prints over a false library whose answers have so many bytes."""
    environment = {
        **os.environ,
        "GINLARCH_LIBRARY": str(library),
        "GINLARCH_ANSWER": str(answer),
        "PYTHONPATH": str(TOP / "python"),
        **variables,
    }
    code = "from ginlarch import Repository\n" + code
    return run_program([sys.executable, "-c", code], env=environment, timeout=300)


@pytest.mark.parametrize("size", [0, 1, 2**31 - 1, 2**31, 2**32, 2**32 + 100])
def test_answer_comes_whole(false_library: Path, size: int) -> None:
    code = "r = Repository()\nprint(*map(len, (r.to_bytes(), r.archive('x'), r.file('x', 'y'))))"
    done = asked(false_library, size, code)
    assert (done.status, done.out) == (0, f"{size} {size} {size}\n".encode())


def test_saved_text_is_whole(false_library: Path, tmp_path: Path) -> None:
    """The writer gets each byte, in little memory."""
    writer = tmp_path / "writer"
    writer.write_text("#!/bin/sh\nwc -c > $0.count\necho 1:2:3:4\n")
    writer.chmod(0o755)
    code = (
        "import resource\n"
        "most = lambda: resource.getrusage(resource.RUSAGE_SELF).ru_maxrss\n"
        f"before = most()\nRepository().save({str(tmp_path / 'store')!r})\nprint(most() - before)"
    )
    done = asked(false_library, 2**32 + 100, code, GX=str(writer))
    assert (done.status, done.err) == (0, b"")
    assert int((tmp_path / "writer.count").read_text()) == 2**32 + 100
    assert int(done.out) < 50_000


def test_answer_that_is_short_is_refused(false_library: Path) -> None:
    done = asked(false_library, 10, "Repository().to_bytes()", GINLARCH_GIVEN="7")
    told = b"RuntimeError: libginlarch gave 7 bytes where 10 were told"
    assert (done.status, done.err.splitlines()[-1]) == (1, told)


# ---- store files


def test_store_is_saved_and_opened(ginlarch, repository, saved: Path, gx: Program) -> None:
    with ginlarch.Repository.open(saved) as again:
        assert again.refs == repository.refs
        assert saved.read_bytes() == again.to_bytes()
        again.import_stream(MORE)
        saved.chmod(0o444)
        again.save()
        assert mode_of(saved) == 0o444
        again.import_stream(b"reset refs/heads/last\nfrom refs/heads/main\n\n")
        again.save()
    with ginlarch.Repository.open(saved) as last:
        assert {"refs/heads/more", "refs/heads/last"} <= set(last.refs)
    assert gx.prints("refs", saved).count(b"\n") == len(last_refs(ginlarch, saved))
    assert os.listdir(saved.parent) == [saved.name]


def version_of(path: Path) -> int:
    with open(path, "rb") as store:
        return int(store.readline().split()[1])


@pytest.mark.parametrize("opened", [1, 2, 3])
def test_store_keeps_its_version(
    ginlarch, repository, gx: Program, gx_import: Callable[..., Path], tmp_path: Path, opened: int
) -> None:
    """A growing store stays one, any other becomes one of version 2, and what is new grows."""
    store, other = tmp_path / "s.gx", tmp_path / "other.gx"
    if opened == 1:
        store.write_bytes(b"gxstore 1\nobjects 0\nrefs 0\nend\n")
    else:
        gx_import("s.gx")
    if opened == 3:
        gx.prints("grow", store)
    assert version_of(store) == opened
    with ginlarch.Repository.open(store) as changed:
        other.touch()
        with pytest.raises(ginlarch.StoreChanged):
            changed.save(other)
        other.unlink()
        changed.import_stream(b"blob\ndata 1\nx\n")
        changed.save()
        assert version_of(store) == max(opened, 2)
        assert store.read_bytes() == changed.to_bytes()
        changed.save(other)
        assert (version_of(other), version_of(store)) == (3, max(opened, 2))
        assert other.read_bytes() == changed.to_bytes()
        changed.import_stream(b"blob\ndata 1\ny\n")
        changed.save()
        assert version_of(other) == 3
    for path in (store, other):
        gx.prints("verify", path)


def test_growing_store_is_that_of_gx(
    ginlarch, repository, gx: Program, gx_import: Callable[..., Path], tmp_path: Path
) -> None:
    store = gx_import("s.gx")
    repository.save(tmp_path / "new.gx")
    gx.prints("grow", store)
    assert (tmp_path / "new.gx").read_bytes() == store.read_bytes()
    with ginlarch.Repository.from_bytes(store.read_bytes()) as again:
        assert (again.refs, again.to_bytes()) == (repository.refs, store.read_bytes())


def test_tables_that_lie_are_refused(ginlarch, repository) -> None:
    text = repository.to_bytes().replace(b"refs/heads/main\n", b"refs/heads/mine\n")
    with pytest.raises(ginlarch.faults.BadRows):
        ginlarch.Repository.from_bytes(text)


def last_refs(ginlarch, path: Path) -> dict:
    with ginlarch.Repository.open(path) as opened:
        return opened.refs


def test_changed_store_is_not_replaced(ginlarch, saved: Path) -> None:
    with ginlarch.Repository.open(saved) as one, ginlarch.Repository.open(saved) as other:
        one.import_stream(MORE)
        one.save()
        other.import_stream(b"reset refs/heads/other\nfrom refs/heads/main\n\n")
        before = saved.read_bytes()
        with pytest.raises(ginlarch.StoreChanged):
            other.save()
        assert saved.read_bytes() == before
    with ginlarch.Repository() as new, pytest.raises(ginlarch.StoreChanged):
        new.save(saved)
    assert saved.read_bytes() == before
    assert os.listdir(saved.parent) == [saved.name]


def test_removed_store_is_not_made_again(ginlarch, saved: Path) -> None:
    with ginlarch.Repository.open(saved) as opened:
        saved.unlink()
        with pytest.raises(ginlarch.StoreChanged):
            opened.save()
        assert not saved.exists()
        opened.save(saved.parent / "other.gx")
        assert os.listdir(saved.parent) == ["other.gx"]


def test_left_over_of_a_killed_run_is_removed(repository, tmp_path: Path) -> None:
    (tmp_path / "s.gx.new").write_bytes(b"gxstore")
    repository.save(tmp_path / "s.gx")
    assert (tmp_path / "s.gx").read_bytes() == repository.to_bytes()
    assert os.listdir(tmp_path) == ["s.gx"]


SPELLINGS = ["s.gx", "./s.gx", "../{}/s.gx", "{}", b"s.gx", "link", Path("s.gx")]


@pytest.mark.parametrize("opened", SPELLINGS, ids=repr)
@pytest.mark.parametrize("written", SPELLINGS, ids=repr)
def test_spellings_of_a_file_are_one(
    ginlarch, repository, tmp_path: Path, monkeypatch, opened, written
) -> None:
    def spelled(path):
        whole = tmp_path.name if "/" in str(path) else tmp_path / "s.gx"
        return path.format(whole) if isinstance(path, str) else path

    monkeypatch.chdir(tmp_path)
    repository.save("s.gx")
    (tmp_path / "link").symlink_to("s.gx")
    with ginlarch.Repository.open(spelled(opened)) as again:
        again.import_stream(MORE)
        again.save(spelled(written))
    assert "refs/heads/more" in last_refs(ginlarch, tmp_path / "s.gx")
    assert (tmp_path / "link").is_symlink()


def test_folder_may_change_meanwhile(ginlarch, saved: Path, tmp_path: Path, monkeypatch) -> None:
    monkeypatch.chdir(tmp_path)
    with ginlarch.Repository.open(saved.name) as opened:
        opened.import_stream(MORE)
        monkeypatch.chdir("/")
        opened.save()
    assert "refs/heads/more" in last_refs(ginlarch, saved)


@pytest.mark.parametrize("kind", [bytes, bytearray, memoryview])
def test_bytes_are_taken_of_each_kind(ginlarch, repository, stream: bytes, kind: type) -> None:
    with ginlarch.Repository.from_bytes(kind(repository.to_bytes())) as again:
        assert again.refs == repository.refs
        assert again.file(kind(b"main"), kind(b"run")) == b"#!/bin/sh\n"
    with ginlarch.Repository() as again:
        again.import_stream(kind(stream), done=True)
        assert again.refs == repository.refs


@pytest.mark.parametrize("make", [os.mkfifo, os.mkdir, None], ids=["pipe", "folder", "device"])
def test_only_a_file_is_opened(ginlarch, tmp_path: Path, make) -> None:
    path = tmp_path / "s.gx" if make else Path("/dev/zero")
    if make:
        make(path)
    with pytest.raises(IsADirectoryError if make is os.mkdir else OSError) as caught:
        ginlarch.Repository.open(path)
    assert caught.value.filename == str(path)


def test_missing_file_is_told(ginlarch, repository, tmp_path: Path) -> None:
    with pytest.raises(FileNotFoundError):
        ginlarch.Repository.open(tmp_path / "gone.gx")
    with pytest.raises(FileNotFoundError) as caught:
        repository.save(tmp_path / "gone" / "s.gx")
    assert caught.value.filename == str(tmp_path / "gone" / "s.gx")
    with pytest.raises(OSError, match="File name too long"):
        repository.save(tmp_path / ("s" * 252))
    with pytest.raises(ValueError):
        repository.save()
    assert os.listdir(tmp_path) == []


def test_store_is_saved_by_the_program(repository, tmp_path: Path, monkeypatch) -> None:
    monkeypatch.delenv("GX")
    monkeypatch.setenv("PATH", str(tmp_path))
    with pytest.raises(FileNotFoundError, match="GX names"):
        repository.save(tmp_path / "s.gx")


def test_text_that_is_cut_off_replaces_nothing(ginlarch, saved: Path, monkeypatch) -> None:
    before = saved.read_bytes()

    def cut(handle, name: str) -> Iterator[bytes]:
        yield before[: len(before) // 2]
        raise KeyboardInterrupt

    with ginlarch.Repository.open(saved) as opened:
        with monkeypatch.context() as patched:
            patched.setattr(ginlarch.calls.Handle, "pieces", cut)
            with pytest.raises(KeyboardInterrupt):
                opened.save()
        assert (saved.read_bytes(), os.listdir(saved.parent)) == (before, [saved.name])
        opened.import_stream(MORE)
        opened.save()
    assert "refs/heads/more" in last_refs(ginlarch, saved)


def test_save_waits_no_longer_than_it_is_told(ginlarch, saved: Path) -> None:
    with ginlarch.Repository.open(saved) as opened, open(f"{saved}.new", "wb") as held:
        os.chmod(held.fileno(), 0o600)
        fcntl.flock(held, fcntl.LOCK_EX)
        opened.import_stream(MORE)
        for seconds in (0, 1):
            with pytest.raises(ginlarch.StoreLocked):
                opened.save(wait=seconds)
        threading.Timer(1, lambda: fcntl.flock(held, fcntl.LOCK_UN)).start()
        opened.save(wait=60)
    assert "refs/heads/more" in last_refs(ginlarch, saved)


# ---- rights


def access_list(owner: int, group: int, mask: int, others: int, **users: int) -> bytes:
    """Named users' rights beside those of a mode. Source: acl(5), and Linux' posix_acl_xattr.h."""
    named = [(2, rights, int(user[1:])) for user, rights in users.items()]
    entries = [(1, owner, -1), *named, (4, group, -1), (16, mask, -1), (32, others, -1)]
    return struct.pack("<I", 2) + b"".join(struct.pack("<HHi", *entry) for entry in entries)


@pytest.fixture
def save_as(shared: Path, gx_of_all: Path, saved: Path) -> Callable[..., Done]:
    """Saves the store with one more ref as another user, who is in these groups."""
    folder = saved.parent / "module"
    left_out = shutil.ignore_patterns("__pycache__")
    shutil.copytree(TOP / "python/ginlarch", folder / "ginlarch", ignore=left_out)
    shutil.copy(shared, folder / "ginlarch/libginlarch.so")
    saved.parent.chmod(0o777)
    code = (
        f"from ginlarch import Repository\nr = Repository.open({str(saved)!r})\n"
        f"r.import_stream({MORE!r})\nr.save()"
    )
    paths = {"PYTHONPATH": str(folder), "PYTHONDONTWRITEBYTECODE": "1", "GX": str(gx_of_all)}

    def save(user: int, group: int, *groups: int, umask: int = 0o022) -> Done:
        who = {"user": user, "group": group, "extra_groups": list(groups), "umask": umask}
        return run_program([sys.executable, "-c", code], env={**os.environ, **paths}, **who)

    return save


@needs_users
@pytest.mark.parametrize(
    "mode, saver, rights",
    [
        # whoever isn't the owner can't give the file to him
        (0o666, (1002, 2002), (0o666, 1002, 2002)),
        (0o604, (1002, 2002), (0o600, 1002, 2002)),
        (0o646, (1002, 2002), (0o644, 1002, 2002)),
        # one of the group keeps it in the group
        (0o664, (1002, 2002, 2001), (0o664, 1002, 2001)),
        (0o660, (1002, 2002, 2001), (0o660, 1002, 2001)),
        # bits of other kinds go
        (0o6755, (1001, 2001), (0o755, 1001, 2001)),
        (0o6755, (0, 0), (0o755, 1001, 2001)),
        (0o640, (0, 0), (0o640, 1001, 2001)),
    ],
    ids=str,
)
def test_rights_never_widen(
    saved: Path, save_as: Callable[..., Done], mode: int, saver: tuple, rights: tuple
) -> None:
    os.chown(saved, 1001, 2001)
    saved.chmod(mode)
    done = save_as(*saver)
    told = saved.stat()
    assert (done.status, (mode_of(saved), told.st_uid, told.st_gid)) == (0, rights)
    assert (b"permissions were left out" in done.err) == (rights[0] != mode & 0o777)


@needs_users
def test_access_list_opens_nothing_to_the_group(saved: Path, save_as: Callable[..., Done]) -> None:
    """The group bits of a file with a list are its mask: 0660, where the group may do nothing."""
    os.chown(saved, 1001, 2001)
    os.setxattr(saved, "system.posix_acl_access", access_list(6, 0, 6, 0, u1002=6))
    assert mode_of(saved) == 0o660
    done = save_as(1001, 2001)
    assert (done.status, mode_of(saved)) == (0, 0o600)
    assert b"permissions were left out" in done.err


def test_left_out_permissions_warn(
    ginlarch, saved: Path, gx_path: Path, tmp_path: Path, monkeypatch
) -> None:
    writer, told = tmp_path / "writer", "permissions were left out"
    writer.write_text(f'#!/bin/sh\necho "gx: {saved}: {told}" >&2\nexec {gx_path} "$@"\n')
    writer.chmod(0o755)
    monkeypatch.setenv("GX", str(writer))
    with ginlarch.Repository.open(saved) as opened, pytest.warns(UserWarning, match=told):
        opened.save()
    with warnings.catch_warnings():
        warnings.simplefilter("error")
        monkeypatch.setenv("GX", str(gx_path))
        with ginlarch.Repository.open(saved) as opened:
            opened.save()


# ---- the pages


@pytest.mark.parametrize(
    "page, shown", [("README.md", b"three\\n"), ("docs/LIBRARY.md", b"UnknownRef\n")]
)
def test_example_of_a_page_runs(
    repository,
    history: Path,
    stream: bytes,
    environment: dict,
    shared: Path,
    page: str,
    shown: bytes,
) -> None:
    (history / "more").write_bytes(stream)
    if page == "README.md":
        (history / "hello.gx").write_bytes(repository.to_bytes())
    shown_there = (TOP / page).read_text().split("```python\n")[1:]
    example = "".join(part.split("```")[0] for part in shown_there)
    example = example.replace('"README.md"', '"doc/README"')
    paths = {"PYTHONPATH": str(TOP / "python"), "GINLARCH_LIBRARY": str(shared)}
    done = run_program([sys.executable, "-c", example], cwd=history, env={**environment, **paths})
    (history / "hello.gx").unlink(missing_ok=True)
    assert (done.status, done.err) == (0, b"")
    assert shown in done.out
