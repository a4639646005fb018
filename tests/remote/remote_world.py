"""A folder where git uses a remote of its own or a store, and what comes of each command."""

from __future__ import annotations

import os
import resource
import subprocess
import sys
from collections.abc import Callable
from importlib.machinery import SourceFileLoader
from importlib.util import module_from_spec, spec_from_loader
from pathlib import Path
from types import ModuleType

from programs import SCRIPTS, Done, Word, printed, run_program

REFS = ["for-each-ref", "--format=%(objectname) %(refname)"]
SETTINGS = "[init]\ndefaultBranch = main\n[advice]\nnestedTag = false\n"
SIDES = ("AUTHOR", "COMMITTER")
WHO = {f"GIT_{side}_NAME": "A" for side in SIDES} | {f"GIT_{side}_EMAIL": "a@x" for side in SIDES}
# a line of a commit that no stream of git 2.39 keeps
SIGNATURE = "\ngpgsig -----BEGIN\n \n -----END\n\n"


class World:
    """A folder with a remote, and a repository `work` whose remote it is. `seen` is what came of
    commands."""

    def __init__(self, folder: Path, name: str, gx_path: Path):
        self.folder, self.gx, self.seen = folder, gx_path, []
        self.remote = folder / name
        self.url = f"gx::{self.remote}" if name.endswith(".gx") else f"file://{self.remote}"
        # what a killed run leaves goes with the folder
        for made in ("left", "bin"):
            (folder / made).mkdir(parents=True)
        (folder / "bin/python3").symlink_to(sys.executable)
        place = f"{folder}/bin:{SCRIPTS}:{os.environ['PATH']}"
        settings = {"HOME": str(folder), "TMPDIR": str(folder / "left"), "GIT_CONFIG_NOSYSTEM": "1"}
        self.environment = {**os.environ, **WHO, **settings, "PATH": place, "GX": str(gx_path)}
        self.time = 0
        (folder / ".gitconfig").write_text(SETTINGS)
        self.git("init", "-q", "-b", "main", "work", where=".")
        if name.endswith(".git"):
            self.git("init", "-q", "--bare", "-b", "main", self.remote, where=".")
        self.git("remote", "add", "origin", self.url)
        self.time = 1600000000

    def run(self, *words: Word, where: str = "work", more: dict | None = None, **given) -> Done:
        """How a command of git ends, in a repository beside the remote. `more` are variables."""
        self.time += 1
        dates = {f"GIT_{side}_DATE": f"@{self.time} +0000" for side in SIDES}
        given.update(cwd=self.folder / where, env={**self.environment, **dates, **(more or {})})
        return run_program(["git", *words], timeout=300, **given)

    def git(self, *words: Word, **more) -> str:
        """What a command of git prints, which has to succeed."""
        return os.fsdecode(printed(self.run(*words, **more), ["git", *words])).strip()

    def store(self, command: str, *words: Word, stdin: bytes = b"") -> bytes:
        """What a command of gx prints of the store, which has to succeed."""
        words = [self.gx, command, *words, self.remote]
        return printed(run_program(words, stdin, env=self.environment), words)

    def commit(self, files: dict, where: str = "work") -> str:
        """A commit of the files, by their names and texts."""
        for name, text in files.items():
            path = self.folder / where / os.fsdecode(name)
            path.parent.mkdir(parents=True, exist_ok=True)
            path.write_text(text)
        self.git("add", "-A", where=where)
        self.git("commit", "-qm", "Change", where=where)
        return self.git("rev-parse", "HEAD", where=where)

    def refs(self) -> bytes:
        """The refs of the remote."""
        if self.remote.suffix == ".gx":
            return self.store("refs") if self.remote.exists() else b""
        return self.refs_of(self.remote)

    def refs_of(self, path: Path) -> bytes:
        return run_program(["git", "-C", path, *REFS], env=self.environment).out

    def named(self) -> dict[str, str]:
        """The digits of each ref of the remote."""
        rows = [line.split(" ", 1) for line in os.fsdecode(self.refs()).splitlines()]
        return {name: digits for digits, name in rows}

    def short_named(self) -> dict[str, str]:
        """The same by the last part of the name."""
        return {name.rpartition("/")[2]: digits for name, digits in self.named().items()}

    def clones(self) -> list[Path]:
        """The repositories beside the remote."""
        found = [*self.folder.glob("*/.git"), *self.folder.glob("*/objects")]
        return sorted({path.parent for path in found} - {self.remote})

    def see(self, *words: Word, where: str = "work", **more) -> str:
        """Runs a command, and keeps whether it succeeds, what it tells of refs, and all refs."""
        done = self.run(*words, where=where, **more)
        # of a deletion that is refused, git tells a reason of its own as `(delete):REF`
        rows = [line.replace(b"\t(delete):", b"\t:").split(b"\t") for line in done.out.splitlines()]
        told = sorted(row[:2] for row in rows if len(row) > 1)
        clones = {path.name: self.refs_of(path) for path in self.clones()}
        shown = " ".join(map(str, words)).replace(self.url, "URL")
        self.seen.append((shown, done.status == 0, told, self.refs(), clones))
        return done.err.decode(errors="surrogateescape")

    def started(self) -> None:
        """Two commits on main, one on side, a tag of each kind, all pushed, and a clone of that."""
        self.commit({"file": "1\n", "doc/read me": "2\n"})
        self.git("branch", "side")
        self.git("tag", "-m", "First", "v1")
        self.commit({"file": "3\n"})
        self.git("tag", "light")
        self.see("push", "--porcelain", "origin", "main", "side", "v1", "light")
        self.see("clone", self.url, "clone", where=".")

    def refused(self, *words: Word, told: str, where: str = "work", **more) -> None:
        """Runs a command that has to fail with these words, and to leave the bytes of the store."""
        before = self.remote.read_bytes() if self.remote.exists() else None
        done = self.run(*words, where=where, **more)
        after = self.remote.read_bytes() if self.remote.exists() else None
        said = done.err.decode(errors="replace")
        assert done.status != 0 and told in said, f"git {words} said {said!r}"
        assert after == before, f"git {words} changed the bytes of the store"

    def written(self, kind: str, change: Callable[[str], str], of: str | None = None) -> str:
        """A commit or a tag with its text changed, as an object that no ref holds: HEAD or v1, if
        no other is named."""
        text = self.git("cat-file", kind, of or ("HEAD" if kind == "commit" else "v1")) + "\n"
        path = self.folder / "object"
        path.write_text(change(text))
        return self.git("hash-object", "--literally", "-t", kind, "-w", path)

    def signed(self, of: str = "HEAD") -> str:
        return self.written("commit", lambda text: text.replace("\n\n", SIGNATURE, 1), of)

    def early(self) -> str:
        """The last commit as of a second before 1970, which no store holds."""
        line = "committer A <a@x> "
        return self.written("commit", lambda text: text.replace(f"{line}1", f"{line}-1"))

    def wrapped(self, script: str) -> dict[str, str]:
        """A program that runs gx in another way."""
        path = self.folder / "wrapped"
        path.write_text(f"#!/bin/bash\ngx={str(self.gx)!r}\n{script}\nexec \"$gx\" \"$@\"\n")
        path.chmod(0o755)
        return {"GX": str(path)}

    def before_import(self, command: str) -> dict[str, str]:
        """A program that runs a command before its first import."""
        begun = self.folder / "begun"
        first = f'[ "$2" = import ] && mkdir {begun} 2> /dev/null'
        return self.wrapped(f"if {first}; then {command}; fi")

    def pushed_at_once(self, pushes: list[tuple[str, str]]) -> list[int]:
        """The status of each push, of a repository and what it sends, all at the same time."""

        def begun(where: str, sent: str) -> subprocess.Popen:
            words = ["git", "-C", self.folder / where, "push", "-q", self.url, sent]
            return subprocess.Popen(words, env=self.environment, stderr=subprocess.DEVNULL)

        return [push.wait() for push in [begun(*push) for push in pushes]]

    def counted(self) -> tuple[dict[str, str], Callable[[], list[str]]]:
        """A program that notes the commands of gx, and what it noted."""
        log = self.folder / "log"
        log.write_text("")
        return self.wrapped(f'echo "$2" >> {log}'), lambda: log.read_text().split()

    def seconds(self, *words: Word, **more) -> tuple[Done, float]:
        """How a command of git ended, and the processor time of it and of all that it ran."""
        before = resource.getrusage(resource.RUSAGE_CHILDREN)
        done = self.run(*words, **more)
        after = resource.getrusage(resource.RUSAGE_CHILDREN)
        return done, after.ru_utime + after.ru_stime - before.ru_utime - before.ru_stime


def helper() -> ModuleType:
    """The script git-remote-gx as a module."""
    loader = SourceFileLoader("git_remote_gx", str(SCRIPTS / "git-remote-gx"))
    module = module_from_spec(spec_from_loader(loader.name, loader))
    exec(compile(loader.get_data(loader.path), loader.path, "exec"), module.__dict__)
    return module
