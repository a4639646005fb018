"""Commits with further headers: signatures, tags that were merged, and what other programs add."""

from __future__ import annotations

from collections.abc import Callable
from pathlib import Path

import pytest

from programs import SCRIPTS, Program, run_program

WHO = "A <a@x> 1 +0000"
SIGNATURE = "gpgsig -----BEGIN SSH SIGNATURE-----\n U1NI\n \n =x\n -----END SSH SIGNATURE-----\n"
MERGED = (
    "mergetag object {digits}\n type commit\n tag v1\n tagger A <a@x> 1 +0000\n \n first\n"
    " -----BEGIN SSH SIGNATURE-----\n U1NI\n -----END SSH SIGNATURE-----\n"
)
# each is the headers behind the committer
HEADERS = {
    "signature": SIGNATURE,
    "tag that was merged": MERGED,
    "extra headers before and behind": "HG:extra branch:side\nencoding ISO-8859-1\nHG:rename a:b\n",
    "encoding and signature": "encoding ISO-8859-1\n" + SIGNATURE,
    "encoding without a name": "encoding \n",
    "same header twice": "note one\nnote two\n",
    "line that continues none": " alone\n",
    "long one": "long " + "x" * 100_000 + "\n",
}
EACH = pytest.mark.parametrize("headers", HEADERS.values(), ids=HEADERS.keys())


class Repository:
    """A repository of git, to which commits of any body are added."""

    def __init__(self, git: Callable[..., bytes], folder: Path, environment: dict[str, str]):
        self.call, self.folder, self.environment = git, folder, environment
        git("init", "-q", "-b", "main", folder)
        (folder / "file").write_text("one\n")
        self.git("add", ".")
        self.git("commit", "-qm", "first")

    def git(self, *words: str | Path) -> str:
        return self.call(*words, cwd=self.folder).decode().strip()

    def commit(self, headers: str, *parents: str, message: str = "m\n") -> str:
        """Adds a commit of main's files, and answers its digits."""
        lines = "".join(f"parent {parent}\n" for parent in parents)
        head = f"tree {self.git('rev-parse', 'main^{tree}')}\n{lines}author {WHO}\ncommitter {WHO}\n"
        headers = headers.format(digits=self.git("rev-parse", "main"))
        words = ["git", "hash-object", "-t", "commit", "-w", "--stdin"]
        body = f"{head}{headers}\n{message}".encode()
        done = run_program(words, body, cwd=self.folder, env=self.environment)
        assert done.status == 0, done.err
        return done.out.decode().strip()

    @property
    def refs(self) -> bytes:
        return self.call("for-each-ref", "--format=%(objectname) %(refname)", cwd=self.folder)

    @property
    def objects(self) -> bytes:
        words = [SCRIPTS / "git-objects", self.folder]
        return run_program(words, env=self.environment).out


@pytest.fixture
def repository(git: Callable[..., bytes], tmp_path: Path, environment: dict[str, str]) -> Repository:
    return Repository(git, tmp_path / "repository", environment)


@pytest.fixture(params=["plain", "growing"])
def store(request: pytest.FixtureRequest, gx: Program, tmp_path: Path) -> Path:
    path = tmp_path / "store"
    gx.prints("init", *(["--growing"] if request.param == "growing" else []), path)
    return path


def signed(repository: Repository, headers: str) -> str:
    """Has main end in a plain commit on a commit with these headers, and answers the latter."""
    odd = repository.commit(headers, repository.git("rev-parse", "main"))
    repository.git("update-ref", "refs/heads/main", repository.commit("", odd, message="last\n"))
    repository.git("tag", "-am", "odd", "v1", odd)
    return odd


@EACH
def test_headers_come_and_go_back(
    gx: Program, git: Callable[..., bytes], repository: Repository, store: Path, headers: str
) -> None:
    odd = signed(repository, headers)
    gx.prints("import", "--objects", store, stdin=repository.objects)
    gx.prints("verify", store)
    assert gx.prints("refs", store) == repository.refs
    body = git("cat-file", "commit", odd, cwd=repository.folder)
    said = b"%s commit %d\n%s\n" % (odd.encode(), len(body), body)
    assert gx.prints("batch", store, stdin=odd.encode() + b"\n") == said
    bundle, mirror = store.parent / "bundle", store.parent / "mirror"
    bundle.write_bytes(gx.prints("bundle", store))
    git("clone", "-q", "--mirror", bundle, mirror)
    git("fsck", "--full", "--strict", cwd=mirror)
    assert git("for-each-ref", "--format=%(objectname) %(refname)", cwd=mirror) == repository.refs
    assert git("cat-file", "commit", odd, cwd=mirror) == body


@EACH
def test_questions_on_them(
    gx: Program, git: Callable[..., bytes], repository: Repository, store: Path, headers: str
) -> None:
    odd = signed(repository, headers)
    gx.prints("import", "--objects", store, stdin=repository.objects)
    assert gx.prints("log", store, "main") == git("rev-list", "main", cwd=repository.folder)
    raw = git("log", "--format=raw", "--no-show-signature", "main", cwd=repository.folder)
    # git writes messages in another encoding than they have
    assert gx.prints("log", "--format=raw", store, "main") == raw or "encoding" in headers
    assert gx.prints("show", store, "v1:file") == b"one\n"
    assert gx.prints("rev-parse", store, "v1^{commit}").decode().strip() == odd
    gx.prints("archive", store, odd)


def test_no_stream_says_them(gx: Program, repository: Repository, store: Path) -> None:
    """An export of one is refused before it prints; one that leaves it out goes out."""
    odd = signed(repository, SIGNATURE)
    gx.prints("import", "--objects", store, stdin=repository.objects)
    for words in (["export", store], ["export", "--changes", store], ["export", "--changes", store, "main"]):
        done = gx(*words)
        assert (done.status, done.out, done.err) == (1, b"", b"gx: export: Unsupported\n")
    text = gx.prints("export", "--changes", store, f"{odd}..main")
    assert b"last\n" in text and odd.encode() in text


def test_streams_go_on_over_them(
    gx: Program, git: Callable[..., bytes], repository: Repository, store: Path
) -> None:
    signed(repository, SIGNATURE)
    odd = repository.commit(SIGNATURE, repository.git("rev-parse", "main"))
    repository.git("update-ref", "refs/heads/main", odd)
    gx.prints("import", "--objects", store, stdin=repository.objects)
    text = (
        b"commit refs/heads/main\nmark :1\ncommitter A <a@x> 2 +0000\ndata 5\nnext\n"
        b"from refs/heads/main^0\nM 100644 inline new\ndata 2\nx\n\n"
        b"commit refs/heads/side\ncommitter A <a@x> 3 +0000\ndata 5\nside\n"
        b"from refs/heads/main^0\nmerge %s\nM 100644 inline new\ndata 2\ny\n\ndone\n" % odd.encode()
    )
    gx.prints("import", "--done", store, stdin=text)
    done = run_program(
        ["git", "fast-import", "--quiet"], text, cwd=repository.folder, env=repository.environment
    )
    assert done.status == 0, done.err
    gx.prints("verify", store)
    assert gx.prints("refs", store) == repository.refs


def test_commit_without_the_empty_line_is_refused(gx: Program, repository: Repository, store: Path) -> None:
    """Git takes a commit that ends with its headers."""
    head = f"tree {repository.git('rev-parse', 'main^{tree}')}\nauthor {WHO}\ncommitter {WHO}\n"
    words = ["git", "hash-object", "-t", "commit", "-w", "--stdin"]
    body = f"{head}{SIGNATURE}".encode()
    done = run_program(words, body, cwd=repository.folder, env=repository.environment)
    digits = done.out.strip()
    text = b"%s commit %d\n%s\n" % (digits, len(body), body)
    refused = gx("import", "--objects", store, stdin=text + repository.objects)
    assert (refused.status, refused.err) == (1, b"gx: object 1: BadObject\n")
