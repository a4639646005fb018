"""scripts/install.sh, into a folder of its own and with a file in the program's place: paths, modes,
bytes, and what stays.
"""

from __future__ import annotations

import os
from pathlib import Path

import pytest
from programs import SCRIPTS, TOP, Done, run_program

NAMES = ("PREFIX", "BINDIR", "MANDIR", "BASHCOMPLETIONDIR", "ZSHCOMPLETIONDIR", "COMMIT")
COMMIT = "0123456789abcdef0123456789abcdef01234567"
# where each file goes by itself, and where it comes from
INSTALLED = {
    "usr/local/bin/git-objects": "scripts/git-objects",
    "usr/local/bin/git-remote-gx": "scripts/git-remote-gx",
    "usr/local/bin/gx-mirror": "scripts/gx-mirror",
    "usr/local/share/bash-completion/completions/gx": "completions/gx.bash",
    "usr/local/share/man/man1/git-remote-gx.1": "docs/git-remote-gx.1",
    "usr/local/share/man/man1/gx-mirror.1": "docs/gx-mirror.1",
    "usr/local/share/man/man1/gx.1": "docs/gx.1",
    "usr/local/share/zsh/site-functions/_gx": "completions/_gx",
}
PROGRAM = "usr/local/bin/gx"


class Place:
    """A folder that is installed into, and a program beside it."""

    def __init__(self, folder: Path):
        self.to, self.program = folder / "to", folder / "program"
        self.environment = {name: held for name, held in os.environ.items() if name not in NAMES}
        self.environment.update(GX=str(self.program), DESTDIR=str(self.to))

    def run(self, *words: str, umask: int = 0o022, **variables: str) -> Done:
        words = (SCRIPTS / "install.sh", *words)
        return run_program(words, env={**self.environment, **variables}, umask=umask)

    def refuses(self, said: str, **variables: str) -> None:
        done = self.run(**variables)
        assert (done.status, done.err.decode().splitlines()[-1:]) == (1, [f"install.sh: {said}"])
        assert not self.to.exists()

    def modes(self) -> dict[str, int]:
        """The mode of each file."""
        files = (path for path in self.to.rglob("*") if path.is_file())
        return {str(path.relative_to(self.to)): path.stat().st_mode & 0o7777 for path in files}

    def folders(self) -> set[Path]:
        return {path for path in self.to.rglob("*") if path.is_dir()}


@pytest.fixture
def place(tmp_path: Path) -> Place:
    made = Place(tmp_path)
    made.program.write_text("a program\n")
    return made


def mode_of(path: str) -> int:
    return 0o755 if "/bin/" in f"/{path}" else 0o644


def test_refusals(place: Place) -> None:
    """Nothing is left of an install that is refused."""
    place.refuses("no commit: main", COMMIT="main")
    place.refuses("not a path from /: usr/bin/gx", PREFIX="usr")
    place.program.unlink()
    build = "(cd crates/gx && rt run -- blobs < stdin)"
    place.refuses(f"{place.program} isn't there; build it: {build}")
    assert place.run("--none").status == 2
    assert list(place.to.parent.iterdir()) == []


def test_install(place: Place) -> None:
    """The files, their modes whatever the umask is, and their bytes."""
    assert place.run(umask=0o077).status == 0
    assert place.modes() == {path: mode_of(path) for path in (*INSTALLED, PROGRAM)}
    found = {path: (place.to / path).read_bytes() for path in INSTALLED}
    assert found == {path: (TOP / source).read_bytes() for path, source in INSTALLED.items()}
    assert (place.to / PROGRAM).read_bytes() == b"a program\n"


def test_uninstall(place: Place) -> None:
    """What was put in goes, without the program, and nothing else; folders stay."""
    place.run()
    folders = place.folders()
    other = place.to / "usr/local/bin/other"
    other.touch(0o644)
    place.program.unlink()
    assert place.run("--uninstall").status == 0
    assert (list(place.modes()), place.folders()) == (["usr/local/bin/other"], folders)
    assert place.run("--uninstall").status == 0


@pytest.mark.parametrize(
    ("variables", "moved"),
    [
        ({"BINDIR": "/b", "ZSHCOMPLETIONDIR": "/z"}, {"bin": "b", "share/zsh/site-functions": "z"}),
        (
            {"MANDIR": "/m", "BASHCOMPLETIONDIR": "/c"},
            {"share/man": "m", "share/bash-completion/completions": "c"},
        ),
    ],
)
def test_folders_of_their_own(place: Place, variables: dict[str, str], moved: dict[str, str]) -> None:
    """Each folder can be told by itself, and PREFIX for the others."""
    wanted = {}
    for path in (*INSTALLED, PROGRAM):
        to = path.replace("usr/local", "p", 1)
        for old, new in moved.items():
            to = to.replace(f"p/{old}/", f"{new}/", 1)
        wanted[to] = mode_of(path)
    assert place.run(PREFIX="/p", **variables).status == 0
    assert place.modes() == wanted
    assert place.run("--uninstall", PREFIX="/p", **variables).status == 0
    assert place.modes() == {}


def test_commit(place: Place) -> None:
    """The program that is installed tells its commit."""
    place.program.write_bytes(b"a\0\nnot installed: a commit's name goes here\0b")
    assert place.run(COMMIT=COMMIT).status == 0
    assert (place.to / PROGRAM).read_bytes() == b"a\0\n%s\0b" % COMMIT.encode()


def test_scripts_are_beside(place: Place, environment: dict[str, str], git, tmp_path: Path) -> None:
    """gx-mirror finds git-remote-gx where it is installed."""
    place.run(GX=environment["GX"])
    git("init", "-q", "-b", "main", tmp_path / "project")
    git("-C", tmp_path / "project", "commit", "-q", "--allow-empty", "-m", "m")
    program = place.to / PROGRAM
    words = [program.with_name("gx-mirror"), tmp_path / "project", tmp_path / "s.gx"]
    done = run_program(words, env={**environment, "GX": str(program)})
    assert done.status == 0 and done.err.endswith(b" refs/heads/main\n"), done
