"""Store files. The program gx writes them: the variable GX names it, or it is the gx in PATH."""
import contextlib
import errno
import operator
import os
import re
import shutil
import stat
import subprocess
import warnings
import weakref
from typing import BinaryIO, Callable, Iterable, Iterator, NamedTuple, NoReturn, Optional, Tuple, Union

Path = Union[str, bytes, "os.PathLike[str]", "os.PathLike[bytes]"]

#: What stands for a place where there is to be no file.
_NOTHING = "new"


class StoreChanged(Exception):
    """The store file isn't the one that was opened any more, so it wasn't replaced."""


class StoreLocked(Exception):
    """Another run wrote the store file for longer than it was to be waited for."""


class Stamp(NamedTuple):
    """Which file it was, and as of when: one that was written since has another size or time."""

    device: int
    inode: int
    size: int
    nanoseconds: int

    @classmethod
    def of(cls, found: os.stat_result) -> "Stamp":
        return cls(found.st_dev, found.st_ino, found.st_size, found.st_mtime_ns)

    @classmethod
    def read(cls, text: bytes) -> "Stamp":
        return cls(*map(int, text.split(b":")))

    def __str__(self) -> str:
        return ":".join(map(str, self))


def place(path: Path) -> str:
    """The whole path of a file, behind links: one for all spellings of it."""
    return os.path.realpath(os.fsdecode(path))


def read(path: Path) -> Tuple[bytes, Stamp]:
    """The bytes of a regular file, and which one it was. To open a pipe doesn't wait."""
    with open(path, "rb", opener=_open) as file:
        found = os.fstat(file.fileno())
        if not stat.S_ISREG(found.st_mode):
            raise OSError(errno.EINVAL, "not a regular file", os.fsdecode(path))
        return file.read(), Stamp.of(found)


def _open(path: str, flags: int) -> int:
    return os.open(path, flags | os.O_NONBLOCK)


def put(
    path: str, pieces: Iterable[bytes], expected: Optional[Stamp], wait: Optional[int]
) -> Stamp:
    """Has gx put a store's text, which comes in pieces, in the place of the file that is expected,
    or of none.

    StoreChanged: another one stands there. StoreLocked: another run wrote it for longer than `wait`
    seconds. OSError: what stands behind can't be read or written.
    """
    stamp = _NOTHING if expected is None else expected
    with _begun(path, wait, "put", f"--expect-stamp={stamp}") as running:
        # a text that was cut off is no store, so nothing is replaced
        with _killed_by_exceptions(running):
            _write(running.stdin, pieces)
            return Stamp.read(_end(running, path))


@contextlib.contextmanager
def held(path: str, wait: Optional[int]) -> Iterator[Callable[[Iterable[bytes]], None]]:
    """Has gx hold the lock of a store file, so that nothing else writes it. What this gives takes the
    pieces of a stream, and has that imported. Without one the file stays, and so it does where one is
    cut off: it ends with `done`.

    StoreLocked, OSError: as of `put`.
    """
    with _begun(path, wait, "import", "--done", "--force") as running:
        with _killed_by_exceptions(running):
            # what is told back is told behind the lock
            _write(running.stdin, [b"progress held\n"])
            if not running.stdout.readline():
                _end(running, path)

        def give(pieces: Iterable[bytes]) -> None:
            with _killed_by_exceptions(running):
                _write(running.stdin, pieces)
                _end(running, path)

        yield give


# runs that may wait for the end of what they are given
_running: "weakref.WeakSet[subprocess.Popen[bytes]]" = weakref.WeakSet()


def _leave_to_parent() -> None:
    """Has a process that was forked keep no input open, since then it would have no end."""
    nothing = os.open(os.devnull, os.O_WRONLY)
    for running in list(_running):
        if not running.stdin.closed:
            os.dup2(nothing, running.stdin.fileno(), inheritable=False)
    os.close(nothing)


os.register_at_fork(after_in_child=_leave_to_parent)


def _begun(path: str, wait: Optional[int], *words: str) -> "subprocess.Popen[bytes]":
    if wait is not None and operator.index(wait) < 0:
        raise ValueError("so many seconds can't be waited")
    waits = [] if wait is None else [f"--wait={operator.index(wait)}"]
    pipe = subprocess.PIPE
    command = [_program(), "--explain", *words, *waits, "--", path]
    running = subprocess.Popen(command, stdin=pipe, stdout=pipe, stderr=pipe)
    _running.add(running)
    return running


@contextlib.contextmanager
def _killed_by_exceptions(running: "subprocess.Popen[bytes]") -> Iterator[None]:
    try:
        yield
    except BaseException:
        running.kill()
        # what wasn't written yet would be now, and might end a stream
        with contextlib.suppress(OSError):
            running.stdin.close()
        raise


def _end(running: "subprocess.Popen[bytes]", path: str) -> bytes:
    """What a run prints, at its end. One that was refused is raised."""
    printed, said = running.communicate()
    told = said.decode("utf-8", "replace").strip()
    if running.returncode != 0:
        _refuse(path, told or f"gx ended with {running.returncode}")
    if told:
        warnings.warn(told, stacklevel=4)
    return printed


def _program() -> str:
    found = os.environ.get("GX") or shutil.which("gx")
    if found is None:
        told = "a store is saved by the program gx, which GX names, or PATH has"
        raise FileNotFoundError(errno.ENOENT, told, "gx")
    return found


def _write(pipe: BinaryIO, pieces: Iterable[bytes]) -> None:
    # whoever doesn't read on tells why
    try:
        for piece in pieces:
            pipe.write(piece)
        pipe.flush()
    except BrokenPipeError:
        pass


def _refuse(path: str, told: str) -> NoReturn:
    """Raises what the lines of a refused run tell: the fault, and the file and the cause."""
    fault, _, rest = told.partition("\n")
    if fault in ("gx: store changed", "gx: store exists"):
        raise StoreChanged(path)
    if fault == "gx: out of memory":
        raise MemoryError(fault)
    if fault == "gx: name too long":
        raise OSError(errno.ENAMETOOLONG, os.strerror(errno.ENAMETOOLONG), path)
    if fault == "gx: lock failed" and "another run" in rest:
        raise StoreLocked(path)
    number = re.search(r"\(os error (\d+)\)", rest)
    if number is not None:
        raise OSError(int(number[1]), os.strerror(int(number[1])), path)
    raise OSError(errno.EIO, told, path)
