"""Store files in folders of their own: the texts that they may have, and runs of gx over them."""

from __future__ import annotations

import hashlib
import os
import shutil
import stat
import subprocess
from pathlib import Path

import pytest

from programs import Done, Word, counted, run_program

KIND_AND_BODY = tuple[str, bytes]
COMMIT = "02d6adf1689e06135d2b4b4d471f1ae489887b53"
# one commit with one file, as the format of stores says
COMMITTED: list[KIND_AND_BODY] = [
    ("blob", b"version 1\n"),
    ("tree", b"100644 test.txt\0" + bytes.fromhex("83baae61804e65cc73a7201a7252750c76066a30")),
    (
        "commit",
        b"tree d8329fc1cc938780ffdd9f94e0d364e0ea74f579\n"
        b"author A <a@x> 1 +0000\ncommitter A <a@x> 1 +0000\n\nv1",
    ),
]
# another user, and further ones with groups
NOBODY = {"user": 65534, "group": 65534, "extra_groups": []}


def named(kind: str, body: bytes) -> str:
    return hashlib.sha1(b"%s %d\0" % (kind.encode(), len(body)) + body).hexdigest()


def store_text(version: int, objects: list[KIND_AND_BODY]) -> bytes:
    """The text of a store with these objects, and main at the commit."""
    records = []
    for kind, body in objects:
        digits = f" {named(kind, body)}" if version == 2 else ""
        records.append(f"{kind} {len(body)}{digits}\n".encode() + body + b"\n")
    head = f"gxstore {version}\nobjects {len(objects)}\n".encode()
    return head + b"".join(records) + f"refs 1\n{COMMIT} refs/heads/main\nend\n".encode()


def blob_stream(bodies: list[bytes]) -> bytes:
    return b"".join(b"blob\ndata %d\n%s\n" % (len(body), body) for body in bodies)


def branch_stream(number: int) -> bytes:
    """One commit on a branch of its own."""
    return (
        f"commit refs/heads/branch{number}\ncommitter A <a@x> {number} +0000\ndata 0\n"
        f"M 100644 inline test.txt\ndata <<END\n{number}\nEND\n"
    ).encode()


# twenty-four blobs of a megabyte, which take a while to be written
BODIES = [b"%06d" % number + b"x" * 1048570 for number in range(24)]
LARGE = blob_stream(BODIES)
STREAM = blob_stream([b"test content"])
UNKNOWN = b"foo\n"
# of version 1, which the first import replaces by version 2
OLD = store_text(1, COMMITTED)
NEW = store_text(2, [*COMMITTED, ("blob", b"test content")])
WIDE = store_text(2, [*COMMITTED, *(("blob", body) for body in BODIES)])


def is_root() -> bool:
    return os.geteuid() == 0


needs_users = pytest.mark.skipif(not is_root(), reason="only root can be several users")


def as_other() -> dict:
    """What runs a program as a user whom a file's mode can refuse."""
    return NOBODY if is_root() else {}


def can_inject() -> bool:
    """Whether strace can change system calls here."""
    words = ["strace", "-qq", "-o", os.devnull, "-e", "inject=flock:error=EINTR:when=1", "true"]
    return (
        shutil.which("strace") is not None
        and subprocess.run(words, capture_output=True).returncode == 0
    )


needs_strace = pytest.mark.skipif(not can_inject(), reason="strace can't change system calls here")


def mode_of(path: Path) -> int:
    return stat.S_IMODE(path.stat().st_mode)


class StoreFile:
    """A store in a folder of its own, and the program that is run over it."""

    def __init__(self, gx: Path, folder: Path, text: bytes | None = OLD):
        self.gx, self.folder = gx, folder
        self.path, self.next = folder / "store", folder / "store.new"
        if not folder.exists():
            folder.mkdir()
            folder.chmod(0o755)
        if text is not None:
            self.path.write_bytes(text)

    def beside(self, name: str) -> StoreFile:
        """The same store in another folder."""
        return StoreFile(self.gx, self.folder / name)

    def run(self, *words: Word, stdin: bytes = b"", **more) -> Done:
        return run_program([self.gx, *words], stdin, **more)

    def take(self, stream: bytes = STREAM, **more) -> Done:
        return self.run("import", self.path, stdin=stream, **more)

    def start(self, *words: Word, **streams) -> subprocess.Popen:
        """Runs gx behind the test."""
        counted["programs run"] += 1
        how = {
            "stdin": subprocess.DEVNULL,
            "stdout": subprocess.PIPE,
            "stderr": subprocess.PIPE,
            **streams,
        }
        return subprocess.Popen([self.gx, *words], **how)

    def start_waiting(self, **how) -> subprocess.Popen:
        """An import that has its stream, and waits for more: `progress half` is told."""
        child = self.start("import", self.path, stdin=subprocess.PIPE, **how)
        child.stdin.write(STREAM + b"progress half\n")
        child.stdin.flush()
        assert (
            child.stdout.readline() == b"progress half\n"
        ), "progress goes out while the stream is open"
        return child

    def holds(self, *texts: bytes) -> bool:
        """Whether it has one of these texts."""
        return self.path.read_bytes() in texts

    def holds_alone(self, *texts: bytes) -> bool:
        return self.holds(*texts) and not os.path.lexists(self.next)

    def holds_unwritten(self, *texts: bytes) -> bool:
        """Whether it has one of these, and no byte of a next text is there."""
        return self.holds(*texts) and not (self.next.exists() and self.next.stat().st_size)

    def names(self) -> set[str]:
        """The names in its folder."""
        return set(os.listdir(self.folder))

    def made(self, done: Done, text: bytes) -> None:
        """A run was done, and the store has this text."""
        assert (done.status, done.err) == (0, b"")
        assert self.holds_alone(text)

    def kept(self, done: Done, fault: str, text: bytes = OLD) -> None:
        """A run was refused, and the store stays as it was."""
        refused(done, fault)
        assert self.holds_alone(text)


def refused(done: Done, fault: str) -> None:
    """A run was refused with this line alone."""
    assert done == Done(1, b"", f"gx: {fault}\n".encode())


def no_command_line(done: Done) -> None:
    assert (done.status, done.out) == (2, b"")


def ended(child: subprocess.Popen, timeout: float = 60) -> Done:
    """What came of a run behind the test, whose input ends now."""
    out, err = child.communicate(timeout=timeout)
    return Done(child.returncode, out or b"", err or b"")
