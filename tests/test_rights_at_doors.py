"""Who may open a store and what stands beside it, behind each command that writes it: nobody who
was shut out, but for what gx(1) tells of access control lists under FILES.
"""

from __future__ import annotations

import contextlib
import functools
import operator
import os
import random
import shutil
import struct
import sys
from collections import Counter
from collections.abc import Callable
from dataclasses import dataclass
from pathlib import Path
from types import ModuleType

import pytest

from libraries import built, ginlarch, shared  # noqa: F401
from programs import SCRIPTS, TOP, Done, Program, Word, run_program
from store_files import needs_users

# users, with their groups
USERS = {1001: [2001], 1002: [2002, 2001], 1003: [2003], 1004: [2002], 1005: [2005]}
HISTORY = (
    b"commit refs/heads/main\nmark :1\ncommitter A <a@x> 1 +0000\ndata 0\n"
    b"M 100644 inline file\ndata 4\none\n\n"
    b"commit refs/heads/side\nmark :2\ncommitter A <a@x> 2 +0000\ndata 0\nfrom :1\n\n"
)
MORE = b"commit refs/heads/main\ncommitter A <a@x> 3 +0000\ndata 0\nfrom refs/heads/main^0\n\n"
CODE = (
    "import sys, ginlarch\nway, path, stream = sys.argv[1:]\n"
    "if way == 'change':\n"
    "    with ginlarch.Repository.change(path) as r: r.import_stream(stream.encode())\n"
    "else:\n"
    "    r = ginlarch.Repository.open(path); r.import_stream(stream.encode()); r.save()\n"
)
WAYS = (os.O_RDONLY, os.O_WRONLY)
BESIDE = (".HEAD", ".dropped", ".new")
MODES = [0o600, 0o604, 0o640, 0o644, 0o646, 0o660, 0o664, 0o666, 0o400, 0o444, 0o620]
FOLDERS = [0o755, 0o775, 0o777, 0o777, 0o2775, 0o2777, 0o2777, 0o1777]
Entry = tuple[int, int, int]  # of an access control list: its kind, its bits, and whose it is
OWNER, USER, OF_GROUP, GROUP, MASK, OTHERS = 1, 2, 4, 8, 16, 32
LISTS: list[list[Entry]] = [
    [], [], [(USER, 6, 1003)], [(USER, 4, 1003), (MASK, 4, -1)], [(USER, 0, 1003)],
    [(GROUP, 4, 2003)], [(GROUP, 0, 2002)], [(OF_GROUP, 0, -1), (USER, 0, 1001), (MASK, 6, -1)],
]
DEFAULTS: list[list[Entry]] = [[], [], [], [(USER, 6, 1004)]]


def opened_by(user: int, files: list[tuple[Path, int]]) -> list[bool]:
    """Whether a user may open each file in a way, by a process of his. They are eight at most."""
    child = os.fork()
    if child == 0:
        found = 0
        os.setgroups(USERS[user])
        os.setresgid(*[USERS[user][0]] * 3)
        os.setresuid(user, user, user)
        for at, (path, how) in enumerate(files):
            with contextlib.suppress(OSError):
                os.open(path, how)
                found |= 1 << at
        os._exit(found)
    found = os.waitstatus_to_exitcode(os.waitpid(child, 0)[1])
    return [bool(found >> at & 1) for at in range(len(files))]


def who_opens(store: Path) -> dict[str, set[tuple[int, int]]]:
    """The users who may open the store and what stands beside it, and how."""
    paths = [store.with_name(store.name + ending) for ending in ("", *BESIDE)]
    files = [(path, how) for path in paths for how in WAYS]
    found: dict[str, set[tuple[int, int]]] = {path.name: set() for path in paths}
    for user in USERS:
        for (path, how), is_open in zip(files, opened_by(user, files)):
            found[path.name] |= {(user, how)} if is_open else set()
    return found


def list_of(mode: int, entries: list[Entry]) -> bytes:
    """A list with these entries beside a mode's. Source: acl(5), and Linux' posix_acl_xattr.h."""
    rows = {(OWNER, -1): mode >> 6, (OF_GROUP, -1): mode >> 3, (OTHERS, -1): mode}
    rows |= {(kind, whose): bits for kind, bits, whose in entries}
    of_groups = [bits & 7 for (kind, _), bits in rows.items() if kind not in (OWNER, OTHERS)]
    rows.setdefault((MASK, -1), functools.reduce(operator.or_, of_groups))
    entries = [(kind, bits & 7, whose) for (kind, whose), bits in sorted(rows.items())]
    return struct.pack("<I", 2) + b"".join(struct.pack("<HHi", *entry) for entry in entries)


def bits_of(how: int) -> int:
    return 0o4 if how == os.O_RDONLY else 0o2


@dataclass
class Case:
    """A store with its rights in a folder with its own, and a user who writes it."""

    owner: int
    group: int
    mode: int
    access: list[Entry]
    folder_mode: int
    folder_group: int
    default: list[Entry]
    user: int
    umask: int
    door: str

    @classmethod
    def drawn(cls, randoms: random.Random, doors: list[str]) -> Case:
        one = randoms.choice
        return cls(
            one([0, 1001, 1002]), one([0, 2001, 2002]), one(MODES), one(LISTS), one(FOLDERS),
            one([0, 2001, 2002]), one(DEFAULTS), one([0, 0, *USERS]),
            one([0o000, 0o002, 0o022, 0o077]), one(doors),
        )

    def make(self, store: Path, text: bytes) -> None:
        store.parent.mkdir()
        os.chown(store.parent, 0, self.folder_group)
        store.parent.chmod(self.folder_mode)
        store.write_bytes(text)
        os.chown(store, self.owner, self.group)
        store.chmod(self.mode)
        if self.access:
            os.setxattr(store, "system.posix_acl_access", list_of(self.mode, self.access))
        if self.default:
            given = list_of(self.folder_mode, self.default)
            os.setxattr(store.parent, "system.posix_acl_default", given)

    def told_of_lists(self, mode: int) -> set[tuple[int, int]]:
        """Who may be let in by what becomes of lists: the mode that FILE had shows its mask."""
        found = set()
        for user, groups in USERS.items():
            for how in WAYS:
                by_mask = self.group in groups and mode >> 3 & bits_of(how)
                if self.access and (by_mask or mode & bits_of(how)):
                    found.add((user, how))
                if (USER, 6, user) in self.default:
                    found.add((user, how))
        return found


@pytest.fixture
def count(request: pytest.FixtureRequest) -> int:
    return 1000 if request.config.getoption("long") else 25


@pytest.fixture
def runs(
    tmp_path: Path, gx_of_all: Path, shared: Path, environment: dict, git: Callable[..., bytes]
) -> Callable[[Case, Path], Done]:
    """Runs what writes a store as a user."""
    project, scripts = tmp_path / "project", tmp_path / "scripts"
    scripts.mkdir()
    for name in ("gx-mirror", "git-remote-gx"):
        shutil.copy(SCRIPTS / name, scripts / name)
    ignored = shutil.ignore_patterns("__pycache__")
    shutil.copytree(TOP / "python/ginlarch", scripts / "ginlarch", ignore=ignored)
    shutil.copy(shared, scripts / "ginlarch/libginlarch.so")
    git("init", "-q", "-b", "main", project)
    for stream in (HISTORY, MORE):
        git("fast-import", "--quiet", cwd=project, stdin=stream)
    git("update-ref", "-d", "refs/heads/side", cwd=project)
    safe = {"COUNT": "1", "KEY_0": "safe.directory", "VALUE_0": "*", "GLOBAL": "/dev/null"}
    environment = {
        **environment, **{f"GIT_CONFIG_{name}": value for name, value in safe.items()},
        "GX": str(gx_of_all), "HOME": "/", "TMPDIR": "/tmp", "PYTHONDONTWRITEBYTECODE": "1",
        "PYTHONPATH": str(scripts), "PATH": f"{scripts}:{os.environ['PATH']}",
    }
    python = [sys.executable, "-c", CODE]
    doors: dict[str, list[Word]] = {
        "import": [gx_of_all, "import", "FILE"],
        "drop": [gx_of_all, "drop", "FILE", "refs/heads/side"],
        "gc": [gx_of_all, "gc", "FILE"],
        "push": ["git", "-C", project, "push", "-q", "gx::FILE", "main", ":side"],
        "mirror": [sys.executable, scripts / "gx-mirror", project, "FILE"],
        "change": [*python, "change", "FILE", MORE.decode()],
        "save": [*python, "save", "FILE", MORE.decode()],
    }

    def run(case: Case, store: Path) -> Done:
        words = [str(word).replace("FILE", str(store)) for word in doors[case.door]]
        groups = USERS.get(case.user, [0])
        who = {"user": case.user, "group": groups[0], "extra_groups": groups, "umask": case.umask}
        stdin = MORE if case.door == "import" else b""
        return run_program(words, stdin, timeout=600, env=environment, **who)

    run.doors = list(doors)
    return run


@needs_users
def test_nobody_is_let_in(
    ginlarch: ModuleType, gx: Program, tmp_path: Path, runs, count: int, randoms: random.Random
) -> None:
    made, seen = tmp_path / "made", Counter()
    gx.prints("init", made)
    gx.prints("import", made, stdin=HISTORY)
    for _ in range(count):
        case = Case.drawn(randoms, runs.doors)
        store = tmp_path / "folder/s.gx"
        shutil.rmtree(store.parent, ignore_errors=True)
        case.make(store, made.read_bytes())
        before, mode = who_opens(store)["s.gx"], store.stat().st_mode
        done = runs(case, store)
        opened = who_opens(store)
        after = opened.pop("s.gx")
        # who could put another file there may own it
        own = {(case.user, how) for how in WAYS} if done.status == 0 else set()
        allowed = before | own | case.told_of_lists(mode)
        assert after <= allowed, (case, sorted(after - allowed), done)
        if done.status:
            assert after == before, (case, done)
        readers = {user for user, how in after | allowed if how == os.O_RDONLY}
        for name, users in opened.items():
            assert {user for user, _ in users} <= readers, (case, name, users, done)
        seen[f"{case.door} {'done' if done.status == 0 else 'refused'}"] += 1
    print(dict(sorted(seen.items())))
