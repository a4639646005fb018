"""The objects of a repository of git as the text of a store of version 2, written by a hand of its own."""

import re
import subprocess
from dataclasses import dataclass
from pathlib import Path

IDENT = rb"(?:[^<>\n]* )?<[^<>\n]*> \d+ [+-]\d{4}\n"
END = rb"(?:[^\n]+\n)*\n"
COMMIT = re.compile(rb"tree (\w{40})\n((?:parent \w{40}\n)*)author " + IDENT + b"committer " + IDENT + END)
TAG = re.compile(rb"object (\w{40})\ntype commit\ntag [^\n]+\n(?:tagger " + IDENT + rb")?\n")
ENTRY = re.compile(rb"(\d+) ([^\0]+)\0(.{20})", re.S)
MODES = {b"100644", b"100755", b"120000", b"160000", b"40000"}
EMPTY = "4b825dc642cb6eb9a060e54bf8d69288fbee4904"


@dataclass
class Base:
    """The text of a store; the names of git's objects; the refs that the store doesn't have."""

    text: bytes
    there: set[bytes]
    lacking: set[bytes]


def objects_of(git: Path) -> dict[str, tuple[str, bytes]]:
    """Kind and body of each object."""
    words = ["git", f"--git-dir={git}", "cat-file", "--batch-all-objects", "--batch", "--unordered", "--buffer"]
    text, at, found = subprocess.run(words, stdout=subprocess.PIPE, check=True).stdout, 0, {}
    while at < len(text):
        end = text.index(b"\n", at)
        name, kind, size = text[at:end].decode().split()
        found[name] = kind, text[end + 1 : end + 1 + int(size)]
        at = end + 2 + int(size)
    return found


def links_of(kind: str, body: bytes) -> list[str] | None:
    """What an object of the profile names; None of another one."""
    if kind == "blob":
        return []
    if kind == "tree":
        entries = ENTRY.findall(body)
        if sum(len(mode) + len(path) + 22 for mode, path, _ in entries) != len(body):
            return None
        names = [(mode, name.hex()) for mode, _, name in entries]
        is_odd = any(mode not in MODES or (mode, name) == (b"40000", EMPTY) for mode, name in names)
        return None if is_odd else [name for mode, name in names if mode != b"160000"]
    found = (COMMIT if kind == "commit" else TAG).match(body)
    parents = found[2].split()[1::2] if found and kind == "commit" else []
    return [name.decode() for name in [found[1], *parents]] if found else None


def placed(objects: dict[str, tuple[str, bytes]]) -> list[str]:
    """The objects of the profile, each behind what it names."""
    links = {name: links_of(*each) for name, each in objects.items()}
    order: dict[str, bool] = {}  # whether a name has its place, or never gets one
    for first in objects:
        stack = [first]
        while stack:
            name = stack[-1]
            below = links.get(name)
            waiting = [other for other in below or [] if other not in order]
            if name not in order and waiting:
                stack += waiting
                continue
            order.setdefault(stack.pop(), below is not None and all(order[other] for other in below))
    return [name for name, is_placed in order.items() if is_placed]


def base_of(git: Path) -> Base:
    """A store of all objects and refs of a repository, without those that a store of version 2 can't hold."""
    objects = objects_of(git)
    order = placed(objects)
    words = ["git", f"--git-dir={git}", "for-each-ref", "--format=%(objectname) %(refname)"]
    lines = subprocess.run(words, stdout=subprocess.PIPE, check=True).stdout.splitlines()
    held = {name.encode() for name in order if objects[name][0] in ("commit", "tag")}
    refs = [line for line in lines if line.split()[0] in held]
    records = [b"%s %d %s\n%s\n" % (objects[name][0].encode(), len(objects[name][1]), name.encode(), objects[name][1]) for name in order]
    front, last = b"gxstore 2\nobjects %d\n" % len(records), b"refs %d\n" % len(refs)
    refs = sorted(refs, key=lambda line: line.split()[1])
    text = front + b"".join(records) + last + b"".join(line + b"\n" for line in refs) + b"end\n"
    lacking = {line.split()[1] for line in lines} - {line.split()[1] for line in refs}
    return Base(text, {name.encode() for name in objects}, lacking)
