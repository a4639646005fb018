"""Sessions in the notation of docs/TESTING.md: what a file of them says, and how one is run over
the program gx and real files.
"""

from __future__ import annotations

import ctypes
import mmap
import os
import pty
import re
import subprocess
from dataclasses import dataclass, field
from pathlib import Path

from programs import counted

NO_END = "\\ No newline at end of file"
READ_FAILS = "\\ The next read fails"
SHORT_NAMES = "\\ Objects have short names"
HELD = "\\ The store holds "
TOLD = "\\ Standard error gets "
ESCAPE = re.compile(rb"\\x([0-9a-f]{2})(?:\{([0-9]+)\})?")
PROGRESS = re.compile(rb"\r(?:gx: [^\r\n]*)?\x1b\[K")


@dataclass
class Step:
    """A command with what is to come of it."""

    number: int
    text: str
    input: bytes = b""
    fails: bool = False
    printed: bytes = b""
    told: bytes = b""
    held: str = ""


@dataclass
class Session:
    """A title and the commands below it, with those that begin each session of its file."""

    file: Path
    number: int
    title: str
    opening: list[Step]
    steps: list[Step] = field(default_factory=list)
    short: bool = False


class Wrong(Exception):
    """What was expected, and what came."""


def plain(line: str) -> bytes:
    """The bytes that a line stands for."""
    return ESCAPE.sub(lambda m: bytes([int(m[1], 16)]) * int(m[2] or 1), line.encode())


def shown(data: bytes) -> str:
    text = "".join(chr(b) if b in b"\n\t" or 32 <= b < 127 else f"\\x{b:02x}" for b in data)
    return text + (f"\n{NO_END}\n" if data and not data.endswith(b"\n") else "")


class Reader:
    """Reads a file of sessions line by line."""

    def __init__(self, file: Path):
        self.file = file
        self.opening: list[Step] = []
        self.sessions: list[Session] = []
        self.step: Step | None = None
        self.end: str | None = None

    def take(self, number: int, line: str) -> None:
        if self.end is not None:
            self.take_input(line)
        elif line.startswith("$ "):
            self.step = Step(number, line[2:])
            (self.sessions[-1].steps if self.sessions else self.opening).append(self.step)
            self.end = line.split(" <<", 1)[1] if " <<" in line else None
        elif line.startswith("# "):
            if self.sessions and self.step:
                # the empty line before a title is none of the answer
                self.step.printed = self.step.printed.removesuffix(b"\n")
            self.step = None
            self.sessions.append(Session(self.file, number, line[2:], self.opening))
        elif self.sessions:
            self.take_answer(line)

    def take_input(self, line: str) -> None:
        if line == self.end:
            self.end = None
        elif line == NO_END:
            self.step.input = self.step.input[:-1]
        elif line == READ_FAILS:
            self.step.fails = True
        else:
            self.step.input += plain(line) + b"\n"

    def take_answer(self, line: str) -> None:
        """Takes a line behind a title or a command."""
        if line == SHORT_NAMES:
            self.sessions[-1].short = True
        elif self.step is None:
            assert not line, f"{self.file.name}: an answer without a command: {line}"
        elif line == NO_END:
            self.step.printed = self.step.printed[:-1]
        elif line.startswith(HELD):
            self.step.held = line.removeprefix(HELD)
        elif line.startswith((TOLD, "gx: ")):
            self.step.told += line.removeprefix(TOLD).encode() + b"\n"
        else:
            self.step.printed += plain(line) + b"\n"


def sessions_of(file: Path) -> list[Session]:
    reader = Reader(file)
    for number, line in enumerate(file.read_text().removesuffix("\n").split("\n"), 1):
        reader.take(number, line)
    return reader.sessions


def command_of(text: str) -> tuple[list[str], str | None, str | None]:
    """The words of a command, and the files behind `<` and `>`."""
    words, source, target = [], None, None
    for at, part in enumerate(plain(text).decode().split("'")):
        if at % 2:
            words.append(part)
            continue
        for word in part.split(" "):
            if word.startswith("<<") or not word:
                continue
            if word.startswith("<"):
                source = word[1:]
            elif word.startswith(">"):
                target = word[1:]
            else:
                words.append(word)
    return words, source, target


def failing(data: bytes) -> tuple[int, mmap.mmap]:
    """A descriptor that gives these bytes, and then fails: this process's own memory, up to a page
    that no file is behind.
    """
    page = mmap.PAGESIZE
    size = (len(data) + page - 1) // page * page
    with open(os.memfd_create("page"), "r+b") as file:
        file.truncate(size + page)
        area = mmap.mmap(file.fileno(), size + page)
        area[size - len(data) : size] = data
        file.truncate(size)
    memory = os.open("/proc/self/mem", os.O_RDONLY)
    start = ctypes.addressof(ctypes.c_char.from_buffer(area)) + size - len(data)
    os.lseek(memory, start, os.SEEK_SET)
    return memory, area


def counts(text: bytes) -> str:
    """What a store's text holds."""
    at = text.index(b"\n") + 1
    line, at = text[at : text.index(b"\n", at)], text.index(b"\n", at) + 1
    objects = int(line.removeprefix(b"objects "))
    for _ in range(objects):
        line, at = text[at : text.index(b"\n", at)], text.index(b"\n", at) + 1
        at += int(line.split(b" ")[1]) + 1
    refs = int(text[at : text.index(b"\n", at)].removeprefix(b"refs "))
    return f"objects: {objects}, refs: {refs}"


def is_refusal(told: bytes) -> bool:
    """Whether lines on standard error end with a refusal.

    Those of a report end with a number, or with how a stream ended.
    """
    last = told[:-1].rpartition(b"\n")[2]
    return (
        told != b""
        and not last[-1:].isdigit()
        and not last.startswith(b"gx: adapt: the stream ended ")
    )


def status_of(told: bytes) -> int:
    """The status that goes with lines on standard error: 3 where lines of a stream are lost."""
    if told.endswith(b"\ngx: adapt: no done went out, since lines are lost\n"):
        return 3
    return int(is_refusal(told))


class Runner:
    """Runs the steps of a session over a program, in a folder of its own."""

    def __init__(self, gx: Path, folder: Path):
        self.gx, self.folder = gx, folder

    def spawn(self, words: list[str], source: int, err: int) -> tuple[int, bytes, bytes]:
        counted["programs run"] += 1
        done = subprocess.run(
            [self.gx, *words],
            cwd=self.folder,
            stdin=source,
            stdout=subprocess.PIPE,
            stderr=err,
            timeout=60,
        )
        return done.returncode, done.stdout, done.stderr or b""

    def spawn_at_terminal(self, words: list[str], source: int) -> tuple[int, bytes, bytes]:
        """The same with standard error at a terminal, where an import tells what it did.

        The line of its progress goes.
        """
        ours, theirs = pty.openpty()
        status, out, _ = self.spawn(words, source, theirs)
        os.close(theirs)
        told = b""
        try:
            while piece := os.read(ours, 4096):
                told += piece
        except OSError:  # the other end is closed
            pass
        os.close(ours)
        return status, out, PROGRESS.sub(b"", told).replace(b"\r\n", b"\n")

    def run_gx(self, step: Step, words: list[str], source: str | None) -> tuple[int, bytes, bytes]:
        area = None
        if step.fails:
            descriptor, area = failing(step.input)
        elif source:
            descriptor = os.open(self.folder / source, os.O_RDONLY)
        else:
            descriptor = os.memfd_create("input")
            with open(descriptor, "wb", closefd=False) as file:
                file.write(step.input)
            os.lseek(descriptor, 0, os.SEEK_SET)
        try:
            if "--report" not in words and step.told.startswith(
                (b"gx: commands: ", b"gx: pruned objects: ")
            ):
                return self.spawn_at_terminal(words, descriptor)
            return self.spawn(words, descriptor, subprocess.PIPE)
        finally:
            os.close(descriptor)
            del area

    def store_of(self, words: list[str]) -> Path | None:
        """The file of a command that is a store: the one of its words that is a file, or was to be
        made.
        """
        files = os.listdir(self.folder)
        return next((self.folder / word for word in words[1:] if word in files), None)

    def held(self, store: Path) -> str:
        """What a store holds."""
        return counts(store.read_bytes())

    def do_gx(self, step: Step, words: list[str], source: str | None) -> bytes:
        """Runs gx, and compares what it tells. Answers what it printed."""
        store = self.store_of(words)
        before = store.read_bytes() if store else None
        status, out, told = self.run_gx(step, words, source)
        refused = is_refusal(step.told)
        wanted = status_of(step.told)
        if status != wanted:
            raise Wrong(f"the status {wanted}\n", f"the status {status}\n{shown(out)}{shown(told)}")
        if told != step.told and (step.told or words[0] != "adapt" or is_refusal(told)):
            raise Wrong(shown(step.told), shown(told))
        store = self.store_of(words)
        if refused and not step.held and store and store.read_bytes() != before:
            raise Wrong("the store as it was\n", shown(store.read_bytes()))
        if step.held and self.held(store) != step.held:
            raise Wrong(f"{HELD}{step.held}\n", f"{HELD}{self.held(store)}\n")
        return out

    def do(self, step: Step) -> None:
        words, source, target = command_of(step.text)
        if words[0] == "gx":
            out = self.do_gx(step, words[1:], source)
        elif words == ["cat"]:
            out = step.input
        elif words[0] == "cat" and len(words) == 2:
            out = (self.folder / words[1]).read_bytes()
        elif words[0] == "cmp" and len(words) == 3:
            same = (self.folder / words[1]).read_bytes() == (self.folder / words[2]).read_bytes()
            out = b"" if same else f"{words[1]} {words[2]} differ\n".encode()
        else:
            raise Wrong("gx, cat or cmp\n", f"{words[0]}\n")
        if target:
            (self.folder / target).write_bytes(out)
            out = b""
        if out != step.printed:
            raise Wrong(shown(step.printed), shown(out))

    def first_wrong(self, session: Session) -> tuple[Step, str] | None:
        """The first command whose answer is wrong, and how."""
        for step in session.opening + session.steps:
            try:
                self.do(step)
            except (Wrong, OSError, ValueError, subprocess.TimeoutExpired) as fault:
                expected, got = fault.args if isinstance(fault, Wrong) else ("", f"{fault}\n")
                place = f"{session.file.name}:{step.number}: $ {step.text}"
                return step, f"{place}\nexpected:\n{expected}got:\n{got}"
        return None


def spoil(step: Step) -> bool:
    """Turns the last byte of an answer that isn't a line feed. Answers whether there is one."""
    for name in ("told", "printed"):
        data = getattr(step, name)
        body = data.rstrip(b"\n")
        if body:
            setattr(step, name, body[:-1] + bytes([body[-1] ^ 1]) + data[len(body) :])
            return True
    return False
