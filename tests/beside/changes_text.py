"""A reader of streams as `gx export --changes` and `git fast-export` write them."""

from __future__ import annotations

import re
from collections.abc import Iterator

LETTERS = {b"n": b"\n", b"t": b"\t", b"r": b"\r", b"a": b"\a", b"b": b"\b", b"f": b"\f"}
LETTERS[b"v"] = b"\v"


class Command:
    """A command. What it hasn't is None or empty."""

    def __init__(self, word: bytes, ref: bytes):
        self.word, self.ref = word, ref
        self.mark: bytes | None = None
        self.start: bytes | None = None
        self.parents: list[bytes] = []  # marks or digits
        # mode, mark or digits, and path of each M line, without the first two of each D line
        self.changes: list[tuple[bytes | None, bytes | None, bytes]] = []
        self.shown: list[tuple[bytes, bytes]] = []  # each path, with the text that gives it


def unquoted(text: bytes) -> bytes:
    """The path that a text gives, as git reads it."""
    if not text.startswith(b'"'):
        return text

    def byte(found: re.Match[bytes]) -> bytes:
        given = found[1]
        return bytes([int(given, 8)]) if given.isdigit() else LETTERS.get(given, given)

    return re.sub(rb"\\([0-7]{3}|.)", byte, text[1:-1], flags=re.S)


class Lines:
    """The lines of a text, one after the other."""

    def __init__(self, text: bytes):
        self.text, self.at = text, 0

    def next(self) -> bytes | None:
        """The next line, or None at the end."""
        if self.at == len(self.text):
            return None
        end = self.text.index(b"\n", self.at)
        line, self.at = self.text[self.at : end], end + 1
        return line

    def take(self, *fronts: bytes) -> tuple[bytes | None, bytes | None]:
        """The front that the next line has, and what stands behind it; None twice if it has none of
        these."""
        for front in fronts:
            if self.text.startswith(front, self.at):
                return front, self.next()[len(front) :]
        return None, None

    def skip_block(self) -> None:
        """A block of data, with a line feed behind it if there is one."""
        size = int(self.take(b"data ")[1])
        self.at += size
        self.take(b"\n")


def read_commit(command: Command, lines: Lines) -> None:
    """The lines of a commit behind its first."""
    command.mark = lines.take(b"mark ")[1]
    for front in (b"author ", b"committer ", b"encoding "):
        lines.take(front)
    lines.skip_block()
    while (parent := lines.take(b"from ", b"merge ")[1]) is not None:
        command.parents.append(parent)
    word, rest = lines.take(b"D ", b"M ")
    while word:
        mode, given, path = (None, None, rest) if word == b"D " else rest.split(b" ", 2)
        command.changes.append((mode, given, unquoted(path)))
        command.shown.append((unquoted(path), path))
        word, rest = lines.take(b"D ", b"M ")


def read_text(text: bytes) -> Iterator[Command]:
    """The commands of a text."""
    lines = Lines(text)
    while (line := lines.next()) is not None:
        word, _, rest = line.partition(b" ")
        if line in (b"", b"feature done", b"done"):
            continue
        command = Command(word, rest)
        if word == b"blob":
            command.mark = lines.take(b"mark ")[1]
            lines.skip_block()
        elif word == b"commit":
            read_commit(command, lines)
        elif word == b"reset":
            command.start = lines.take(b"from ")[1]
        elif word == b"tag":
            command.ref = b"refs/tags/" + rest
            lines.take(b"mark ")
            command.start = lines.take(b"from ")[1]
            lines.take(b"tagger ")
            lines.skip_block()
        else:
            raise ValueError(f"no command: {line!r}")
        yield command
