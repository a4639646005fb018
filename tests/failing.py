"""Programs of which a call of the system fails, by seccomp(2): each call of some kinds, by whatever
process that they begin, waits until it is told to go on or to fail.
"""

from __future__ import annotations

import contextlib
import ctypes
import errno
import fcntl
import functools
import os
import platform
import re
import select
import socket
import struct
import subprocess
import threading
from collections.abc import Callable, Iterable
from dataclasses import dataclass

import pytest

from programs import Done, Word, counted

# the numbers of calls on x86-64: those that may fail, and what files or processes they are about
OF_DESCRIPTORS = {
    "read": 0, "write": 1, "close": 3, "fstat": 5, "lseek": 8, "pread64": 17, "pwrite64": 18,
    "writev": 20, "dup": 32, "dup2": 33, "fcntl": 72, "flock": 73, "fsync": 74, "fdatasync": 75,
    "ftruncate": 77, "fchdir": 81, "fchmod": 91, "fchown": 93, "fsetxattr": 190, "fgetxattr": 193,
    "flistxattr": 196, "getdents64": 217,
}  # fmt: skip
OF_PATHS = {
    "stat": 4, "lstat": 6, "access": 21, "execve": 59, "chdir": 80, "rename": 82, "mkdir": 83,
    "rmdir": 84, "link": 86, "unlink": 87, "symlink": 88, "readlink": 89, "chmod": 90,
    "setxattr": 188, "getxattr": 191, "listxattr": 194,
}  # fmt: skip
OF_PATHS_IN_FOLDERS = {
    "openat": 257, "mkdirat": 258, "mknodat": 259, "newfstatat": 262, "unlinkat": 263,
    "renameat": 264, "utimensat": 280, "renameat2": 316, "statx": 332, "faccessat2": 439,
}  # fmt: skip
OF_NO_FILE = {
    "poll": 7, "mmap": 9, "clone": 56, "vfork": 58, "wait4": 61, "getcwd": 79, "pipe2": 293,
    "getrandom": 318, "clone3": 435,
}  # fmt: skip
NUMBERS = OF_DESCRIPTORS | OF_PATHS | OF_PATHS_IN_FOLDERS | OF_NO_FILE
NAMES = {number: name for name, number in NUMBERS.items()}

# of linux/seccomp.h, linux/filter.h and linux/prctl.h
SECCOMP, SET_MODE_FILTER, NEW_LISTENER, NO_NEW_PRIVS = 317, 1, 8, 38
RECEIVE, SEND, ADD_DESCRIPTOR, SET_FLAGS = 0xC0502100, 0xC0182101, 0x40182103, 0x40082104
GOES_ON, AT_NUMBER, WAKES_AT_ONCE = 1, 1, struct.pack("Q", 1)
ALLOWED, TOLD = 0x7FFF0000, 0x7FC00000
LOAD, IF_EQUAL, ANSWER = 0x20, 0x15, 0x06

LIBC = ctypes.CDLL(None, use_errno=True)
NAMED_AT_RANDOM = re.compile(r"\b(tmp|git-remote-gx-)[a-z0-9_]{8}\b")


def program_of(process: int) -> str:
    """The command line of a process, without what differs from run to run."""
    with open(f"/proc/{process}/cmdline", "rb", buffering=0) as file:
        return shown(file.read())


@functools.cache
def shown(command_line: bytes) -> str:
    told = command_line.replace(b"\0", b" ").decode(errors="replace").strip()
    return NAMED_AT_RANDOM.sub("", re.sub(r"[^ =]*/", "", told)).split("\n")[0][:70].strip()


@dataclass(frozen=True)
class Call:
    """A call that a process is about to make, which waits as long as this is looked at."""

    name: str
    process: int
    words: tuple[int, ...]

    def program(self) -> str:
        return program_of(self.process)

    def place(self) -> str:
        """The path that it names, or that of the file that it is about; of none, nothing."""
        with contextlib.suppress(OSError):
            if self.name in OF_DESCRIPTORS or self.name == "mmap":
                file = self.words[4 if self.name == "mmap" else 0]
                return os.readlink(f"/proc/{self.process}/fd/{file & 0xFFFFFFFF}")
            if self.name not in OF_NO_FILE:
                with open(f"/proc/{self.process}/mem", "rb", buffering=0) as memory:
                    memory.seek(self.words[self.name in OF_PATHS_IN_FOLDERS])
                    return os.fsdecode(memory.read(4096).partition(b"\0")[0])
        return ""


Judge = Callable[[Call], int]


def filter_of(names: Iterable[str]) -> bytes:
    """A program of bpf(4) that has calls of these kinds told, and allows others."""
    numbers = [NUMBERS[name] for name in names]
    tests = [(IF_EQUAL, len(numbers) - at, 0, one) for at, one in enumerate(numbers)]
    rows = [(LOAD, 0, 0, 0), *tests, (ANSWER, 0, 0, ALLOWED), (ANSWER, 0, 0, TOLD)]
    return b"".join(struct.pack("HBBI", *row) for row in rows)


def give_listener(code: bytes, to: socket.socket) -> None:
    """Has this process and all that it begins tell of calls, and hands on where they are told."""
    program = ctypes.create_string_buffer(code)
    told = struct.pack("HxxxxxxP", len(code) // 8, ctypes.addressof(program))
    LIBC.prctl(NO_NEW_PRIVS, 1, 0, 0, 0)
    listener = LIBC.syscall(SECCOMP, SET_MODE_FILTER, NEW_LISTENER, told)
    if listener < 0:
        raise OSError(ctypes.get_errno(), "seccomp")
    socket.send_fds(to, [b"\0"], [listener])


def answer(listener: int, judge: Judge) -> None:
    """Answers one call."""
    # who is killed asks no more
    with contextlib.suppress(FileNotFoundError, ProcessLookupError, InterruptedError):
        told = bytearray(80)
        fcntl.ioctl(listener, RECEIVE, told)
        number, process, _, call, _, _, *words = struct.unpack("QIIiIQ6Q", told)
        made = Call(NAMES[call], process, tuple(words))
        fault = judge(made)
        if fault and made.name == "close":
            let_go(listener, number, words[0])
        fcntl.ioctl(listener, SEND, struct.pack("QqiI", number, 0, -fault, 0 if fault else GOES_ON))


def let_go(listener: int, number: int, file: int) -> None:
    """What a close that fails does all the same, as close(2) says of Linux."""
    with contextlib.suppress(OSError), open(os.devnull, "rb") as nothing:
        row = (number, AT_NUMBER, nothing.fileno(), file & 0xFFFFFFFF, 0)
        fcntl.ioctl(listener, ADD_DESCRIPTOR, struct.pack("QIIII", *row))


def serve(source: socket.socket, judge: Judge) -> None:
    """Answers all calls, until no process is left that could make one."""
    _, listeners, _, _ = socket.recv_fds(source, 1, 1)
    for listener in listeners:
        # on a busy machine each call would wait for a turn of this program; since Linux 6.6
        with contextlib.suppress(OSError):
            fcntl.ioctl(listener, SET_FLAGS, WAKES_AT_ONCE)
        poll = select.poll()
        poll.register(listener, select.POLLIN)
        try:
            while poll.poll()[0][1] & select.POLLIN:
                answer(listener, judge)
        finally:
            os.close(listener)


def run_watched(
    words: list[Word], names: Iterable[str], judge: Judge, stdin: bytes, timeout: float, **more
) -> Done:
    """Runs a program to the end of all that it began. Calls of these names fail by what `judge`
    answers, and go on where that is 0.

    TimeoutExpired: not all has ended by then, and was killed.
    """
    counted["programs run"] += 1
    ours, theirs = socket.socketpair()
    code, pipe = filter_of(names), subprocess.PIPE
    watcher = threading.Thread(target=serve, args=[ours, judge])
    watcher.start()
    with ours, theirs:
        child = subprocess.Popen(
            words, stdin=pipe, stdout=pipe, stderr=pipe, start_new_session=True,
            preexec_fn=lambda: give_listener(code, theirs), **more,
        )  # fmt: skip
        theirs.close()
        try:
            out, err = child.communicate(stdin, timeout=timeout)
            watcher.join(timeout)
        finally:
            if watcher.is_alive():
                with contextlib.suppress(ProcessLookupError):
                    os.killpg(child.pid, 9)
                watcher.join()
                child.wait()
                raise subprocess.TimeoutExpired(words, timeout)
    return Done(child.returncode, out, err)


def can_watch() -> bool:
    """Whether calls can be made to fail here."""
    if platform.machine() != "x86_64":
        return False
    try:
        done = run_watched(["true"], ["execve"], lambda _: errno.EIO, b"", 60)
    except subprocess.SubprocessError:
        return False
    except OSError as fault:
        return fault.errno == errno.EIO
    return done.status != 0


needs_faults = pytest.mark.skipif(not can_watch(), reason="no call can be made to fail here")
