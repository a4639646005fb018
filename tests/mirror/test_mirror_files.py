"""The files of a mirror: when they are written, what they tell, and who may read them."""

from __future__ import annotations

import errno
import os
import shutil
import struct
from pathlib import Path

import pytest
from failing import Call, needs_faults, run_watched
from mirror_world import FAILED, MIRROR, Counted, Repository, Store, World
from programs import SCRIPTS, Done, Program, run_program
from store_files import needs_strace, needs_users


def as_written(path: Path) -> tuple[int, ...]:
    """What differs once a file or a directory was written."""
    stat = path.stat()
    return stat.st_ino, stat.st_size, stat.st_mode, stat.st_mtime_ns, stat.st_ctime_ns


def mode_of(path: Path) -> int:
    return path.stat().st_mode & 0o777


def test_nothing_new(world: World, counted: Counted) -> None:
    """One opening, and nothing is written."""
    paths = [world.folder, *world.folder.glob("s.gx*")]
    before = [as_written(path) for path in paths]
    done = world.mirror(env=counted.environment)
    assert (done.status, done.out, done.err) == (0, b"", b"")
    assert counted.runs("gx") == ["refs"]
    assert [as_written(path) for path in paths] == before


def test_what_a_run_takes(world: World, counted: Counted) -> None:
    """A new commit, a forced branch, a new tag and a deleted branch: one look and one import."""
    repository = world.repository
    repository.delete(b"refs/heads/side")
    repository.commit("new", repository.refs()[b"refs/heads/main"])
    repository.git("tag", "-m", "Two", "v2", "main")
    repository.git("update-ref", "refs/heads/main", "main~1")
    world.follows(env=counted.environment)
    assert counted.runs("gx") == ["refs", "import"]
    assert counted.runs("git").count("fast-export") == 1
    repository.set({b"refs/heads/new": repository.signed(repository.commit("new"))})
    counted.log.write_text("")
    world.follows(env=counted.environment)
    assert counted.runs("gx") == ["refs", "import", "import"]
    log = counted.log.read_text()
    assert log.count("\ngit cat-file --batch --buffer\n") == log.count(" import --objects ") == 1


def test_head(world: World) -> None:
    """FILE.HEAD has the text of git's HEAD, where that is symbolic."""
    head, repository = world.store.beside(".HEAD"), world.repository
    assert head.read_bytes() == b"ref: refs/heads/main\n"
    repository.git("symbolic-ref", "HEAD", "refs/heads/side")
    world.follows()
    assert head.read_bytes() == b"ref: refs/heads/side\n"
    repository.git("update-ref", "--no-deref", "HEAD", "main")
    world.follows()
    assert head.read_bytes() == b""


def test_clone(world: World) -> None:
    """It checks out the branch of the repository that the store follows."""
    world.repository.git("branch", "first", "main")
    world.repository.git("symbolic-ref", "HEAD", "refs/heads/side")
    world.follows()
    world.repository.git("clone", "-q", f"gx::{world.store.path}", "../clone")
    told = world.repository.git("symbolic-ref", "HEAD", cwd=world.folder / "clone")
    assert told == b"refs/heads/side\n"


def test_rights(world: World) -> None:
    """FILE.HEAD is for those who may read FILE, FILE.dropped for its owner."""
    world.repository.delete(b"refs/heads/side")
    world.follows()
    world.store.path.chmod(0o640)
    world.repository.git("symbolic-ref", "HEAD", "refs/heads/none")
    world.follows()
    rights = {path.name: mode_of(path) for path in world.folder.glob("s.gx*")}
    assert rights == {"s.gx": 0o640, "s.gx.HEAD": 0o640, "s.gx.dropped": 0o600}


def test_rights_by_a_list(world: World) -> None:
    """Where an access list gives a user rights, the mode shows its mask. Nobody gets more by it."""
    rows = [(1, 6, -1), (2, 4, 12345), (4, 0, -1), (16, 4, -1), (32, 0, -1)]
    text = struct.pack("<I", 2) + b"".join(struct.pack("<HHi", *row) for row in rows)
    try:
        os.setxattr(world.store.path, "system.posix_acl_access", text)
    except OSError as fault:
        pytest.skip(str(fault))
    world.repository.git("symbolic-ref", "HEAD", "refs/heads/side")
    world.follows()
    assert mode_of(world.store.path) == 0o640
    assert mode_of(world.store.beside(".HEAD")) == 0o600


@pytest.mark.parametrize("ending", [".dropped", ".HEAD", ".refused"])
@pytest.mark.parametrize("kind", ["link", "fifo", "folder"])
def test_file_of_another_kind(world: World, ending: str, kind: str) -> None:
    """It isn't opened, so no run hangs, and nothing is written elsewhere."""
    beside, other = world.store.beside(ending), world.folder / "other"
    beside.unlink(missing_ok=True)
    if kind == "link":
        beside.symlink_to(other)
    elif kind == "fifo":
        os.mkfifo(beside)
    else:
        beside.mkdir()
    world.repository.delete(b"refs/heads/side")
    held = world.store.refs()
    done = world.mirror()
    assert done.status == FAILED and beside.name.encode() in done.err, done
    assert (world.store.refs(), other.exists()) == (held, False)


@needs_users
def test_lock_of_another_user(world: World) -> None:
    """A file of another's isn't waited for."""
    beside = world.store.beside(".dropped")
    beside.touch()
    os.chown(beside, 65534, 65534)
    world.repository.delete(b"refs/heads/side")
    world.stops(FAILED, "another user's")


def test_names_of_any_bytes(world: World) -> None:
    """Refs whose names aren't UTF-8, or look like options or words of a shell."""
    names = [b"refs/heads/\xe4", b"refs/heads/-x", b"refs/heads/$(x)", b"refs/tags/'"]
    main = world.repository.refs()[b"refs/heads/main"]
    world.repository.set(dict.fromkeys(names, main))
    told = world.follows().err
    assert all(b"%040d %s %s\n" % (0, main, name) in told for name in names)
    world.repository.delete(*names)
    world.follows()
    assert world.store.notes() == sorted((main, name) for name in names)


def test_store_by_a_link(world: World) -> None:
    """What stands beside it stands beside the file that it names."""
    link = world.folder / "elsewhere/t.gx"
    link.parent.mkdir()
    link.symlink_to("../s.gx")
    world.repository.delete(b"refs/heads/side")
    target, world.store.path = world.store.path, link
    world.follows()
    assert (link.is_symlink(), os.listdir(link.parent)) == (True, ["t.gx"])
    assert target.with_name("s.gx.dropped").exists()


class Group:
    """Users whose folder it is, with a store that a repository is mirrored into."""

    def __init__(self, tmp_path: Path, gx_of_all: Path, environment: dict[str, str]):
        self.folder, self.scripts = tmp_path / "shared", tmp_path / "scripts"
        for made in (self.folder, self.scripts):
            made.mkdir()
        for name in ("gx-mirror", "git-remote-gx"):
            shutil.copy(SCRIPTS / name, self.scripts / name)
        more = {"GX": str(gx_of_all), "HOME": str(tmp_path), "GIT_CONFIG_GLOBAL": "/dev/null"}
        safe = {"COUNT": "1", "KEY_0": "safe.directory", "VALUE_0": "*"}
        more |= {f"GIT_CONFIG_{name}": value for name, value in safe.items()}
        self.environment = {**environment, **more, "TMPDIR": "/tmp"}
        self.repository = Repository(tmp_path / "project", self.environment)
        os.chown(self.folder, 1001, 2001)
        self.folder.chmod(0o2775)
        self.store = Store(self.folder / "s.gx", Program(gx_of_all, self.environment))
        self.noted = self.store.beside(".dropped")

    def mirror(self, user: int, group: int = 2001) -> Done:
        who = {"user": user, "group": user, "extra_groups": [group], "umask": 0o002}
        words = ["python3", self.scripts / "gx-mirror", self.repository.path, self.store.path]
        return run_program(words, env=self.environment, **who)


@pytest.fixture
def shared_by(tmp_path: Path, gx_of_all: Path, environment: dict[str, str]) -> Group:
    return Group(tmp_path, gx_of_all, environment)


@needs_users
@pytest.mark.parametrize("mode", [0o664, 0o640], ids=oct)
def test_store_of_a_group(shared_by: Group, mode: int) -> None:
    """Where the members of a group may put another store in the place of one, each of them may run
    the mirror, and nobody else may read or lock what it notes."""
    repository, store = shared_by.repository, shared_by.store
    for number, user in enumerate([1001, 1002, 1003, 1002, 1001]):
        repository.commit("main")
        repository.commit(f"new{number}")
        if number:
            repository.delete(b"refs/heads/new%d" % (number - 1))
        done = shared_by.mirror(user)
        assert done.status == 0, done
        assert store.refs() == repository.refs()
        assert len(store.notes()) == number
        store.path.chmod(mode)
        rights = {path.name: mode_of(path) for path in shared_by.folder.iterdir()}
        assert rights.get("s.gx.dropped", 0o660) == 0o660
    assert shared_by.noted.stat().st_gid == 2001
    before = shared_by.noted.read_bytes()
    repository.delete(b"refs/heads/new4")
    assert shared_by.mirror(1004, 2002).status == FAILED
    assert shared_by.noted.read_bytes() == before


@needs_users
def test_notes_in_a_sticky_folder(shared_by: Group) -> None:
    """Where only its owner may put another store in its place, nobody else gets at the notes."""
    shared_by.folder.chmod(0o3775)
    for name in ("main", "gone"):
        shared_by.repository.commit(name)
    assert shared_by.mirror(1002).status == 0
    shared_by.repository.delete(b"refs/heads/gone")
    assert shared_by.mirror(1002).status == 0
    assert mode_of(shared_by.noted) == 0o600 and len(shared_by.store.notes()) == 1


@needs_users
def test_notes_that_are_another_file(shared_by: Group) -> None:
    """What stands in the notes' place under a second name isn't opened to the group."""
    for name in ("main", "gone"):
        shared_by.repository.commit(name)
    assert shared_by.mirror(1001).status == 0
    shared_by.repository.delete(b"refs/heads/gone")
    secret = shared_by.folder.parent / "secret"
    secret.write_bytes(b"secret\n")
    secret.chmod(0o600)
    os.chown(secret, 1001, 1001)
    shared_by.noted.hardlink_to(secret)
    done = shared_by.mirror(1001)
    assert done.status == FAILED and b"line 1 isn't" in done.err, done
    found = secret.stat()
    assert (mode_of(secret), found.st_gid, found.st_nlink) == (0o600, 1001, 2)


@needs_strace
@pytest.mark.parametrize("ending", [".dropped", ".HEAD"])
def test_full_disk(world: World, ending: str) -> None:
    """It is told which file couldn't be written, and nothing of it is left."""
    world.repository.delete(b"refs/heads/side")
    world.repository.git("symbolic-ref", "HEAD", "refs/heads/none")
    new = f"{world.store.beside(ending)}.new"
    front = ["strace", "-f", "-qq", "-o", os.devnull, "-P", new, "-e"]
    done = world.mirror(front=[*front, "inject=write:error=ENOSPC"])
    told = f"gx-mirror: [Errno 28] No space left on device: '{new}'\n"
    assert done.status == FAILED and told.encode() in done.err, done
    assert not list(world.folder.glob("s.gx*.new"))
    world.follows()


@needs_faults
def test_store_that_cannot_be_looked_at(world: World) -> None:
    """It isn't taken for one that is away, and the cause is told with its name."""
    world.repository.delete(b"refs/heads/side")

    def judge(call: Call) -> int:
        is_look = call.program().startswith("python3 gx-mirror")
        return errno.EIO if is_look and call.place() == str(world.store.path) else 0

    words = [*MIRROR, world.repository.path, world.store.path]
    how = {"env": world.environment, "cwd": world.folder}
    done = run_watched(words, ["newfstatat", "stat"], judge, b"", 60, **how)
    told = f"gx-mirror: [Errno 5] Input/output error: '{world.store.path}'\n"
    assert done.status == FAILED and done.err == told.encode(), done


def test_long_name(world: World) -> None:
    """One beside which not all files can stand is refused before anything is written."""
    world.store.path = world.folder / ("s" * 244)
    world.stops(FAILED, "the name of FILE has more than 243 bytes")
    world.store.path = world.folder / ("s" * 243)
    world.follows()
    world.repository.delete(b"refs/heads/side")
    world.follows()
    assert {".dropped", ".HEAD"} <= {name[243:] for name in world.store.files()}


def test_lost_rights_are_told(world: World, counted: Counted) -> None:
    """Of an import, and of a gc."""
    lost = f"gx: {world.store.path}: permissions were left out"
    counted.write("gx", f'case "$2$1" in *import*|*gc*) echo "{lost}" >&2;; esac')
    world.repository.delete(b"refs/heads/side")
    done = world.follows("--keep-days=0", env=counted.environment)
    assert done.err.count(lost.encode()) == 2, done
