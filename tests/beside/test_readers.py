"""Has other readers of streams read what `gx export --changes --no-done` writes.

Each reads small histories, of which each has one thing that a system may not know, and writes what
it got as a stream again, which git reads. It is written here which histories have to come back with
the same names, which with the same files and number of commits, and what is lost in the others, by
Debian 12's versions. A reader that isn't installed is left out.

    pytest tests/beside/test_readers.py -k fossil     has one of them read all
"""

from __future__ import annotations

import os
import shutil
import subprocess
from collections.abc import Callable
from dataclasses import dataclass, field
from pathlib import Path

import pytest
from places import Places, Repository
from programs import Program, Word, printed, run_program

WHO = b"A U Thor <author@example.com>"
PYTHON = "/usr/bin/python3"
PARSER = """import sys
from fastimport.parser import ImportParser
for command in ImportParser(sys.stdin.buffer).iter_commands():
    files = list(command.iter_files()) if command.name == b"commit" else []
    if files:
        command.file_iter = files
    sys.stdout.buffer.write(bytes(command) + b"\\n")
"""

# ---- the histories


class Story:
    """A stream that begins with a commit of two files on main."""

    def __init__(self) -> None:
        self.text: list[bytes] = []
        self.count = 0
        self.commit("heads/main", [], file("README", "one"), file("src/deep/file"))

    def commit(self, branch: str, parents: list[int], *lines: bytes, who: bytes = WHO) -> Story:
        self.count += 1
        ref = b"refs/" + branch.encode()
        front = b"" if parents else b"reset %s\n" % ref
        front += b"commit %s\nmark :%d\n" % (ref, self.count)
        when = 1700000000 + 60 * self.count
        front += b"committer %s %d +0200\ndata 9\nCommit %d\n" % (who, when, self.count)
        words = [b"merge" if number else b"from" for number in range(len(parents))]
        named = [b"%s :%d\n" % pair for pair in zip(words, parents)]
        self.text.append(front + b"".join([*named, *lines]))
        return self

    def tag(self, mark: int) -> Story:
        tagger = b"tagger %s 1800000000 +0000\ndata 4\nOne\n" % WHO
        self.text.append(b"tag v1\nfrom :%d\n%s" % (mark, tagger))
        return self

    def reset(self, ref: bytes, mark: int) -> Story:
        self.text.append(b"reset %s\nfrom :%d\n\n" % (ref, mark))
        return self


def file(path: str, content: str = "text", mode: str = "100644") -> bytes:
    text = (mode.encode(), path.encode(), len(content), content.encode())
    return b"M %s inline %s\ndata %d\n%s\n" % text


def on_main(*lines: bytes, who: bytes = WHO) -> Story:
    return Story().commit("heads/main", [1], *lines, who=who)


def folder_and_file() -> Story:
    """A file takes the place of a folder, and the folder that of the file."""
    deep = file("src/deep/file", "2")
    return on_main(b"D src\n", file("src")).commit("heads/main", [2], b"D src\n", deep)


def modes() -> Story:
    story = on_main(file("run", mode="100755"))
    story.commit("heads/main", [2], file("run", mode="100644"))
    return story.commit("heads/main", [3], file("run", mode="100755"))


def octopus() -> Story:
    topics = Story()
    for number in "123":
        topics.commit("heads/t" + number, [1], file("t" + number))
    return topics.commit("heads/main", [1, 2, 3, 4], file("t1"), file("t2"), file("t3"))


def stories() -> dict[str, Story]:
    two, topic = file("README", "two"), file("topic")
    side = Story().commit("tags/side", [1], topic).commit("heads/main", [1], two)
    merge = on_main(two).commit("heads/topic", [1], topic).commit("heads/main", [2, 3], topic)
    module = b"M 160000 d670460b4b4aece5915caf5c68d12f560a9fe3e4 module\n"
    return {
        "merge": merge,
        "octopus": octopus(),
        "two roots": Story().commit("heads/other", [], file("other")),
        "folder and file": folder_and_file(),
        "removal": on_main(b"D src/deep/file\n"),
        "no change": on_main().commit("heads/main", [2], two),
        "modes": modes(),
        "link": on_main(file("link", "README", "120000")),
        "module": on_main(module),
        "space": on_main(file("a name.txt")),
        "tab": on_main(file('"a\\ttab"')),
        "quote": on_main(file('"q\\"q"')),
        "UTF-8": on_main(file('"na\\303\\257ve.txt"')),
        "Latin-1": on_main(file('"caf\\351"')),
        "tag": on_main(two).tag(1),
        "light tag": on_main(two).reset(b"refs/tags/light", 1),
        "tag on a side": side,
        "other ref": on_main(two).commit("remotes/origin/topic", [1], topic),
        "branch a/b": on_main(two).commit("heads/a/b", [1], topic),
        "no name": on_main(two, who=b" <author@example.com>"),
        "no address": on_main(two, who=b"author <>"),
    }


# ---- the readers: each reads the text in a folder, and answers what came of it as streams

Run = Callable[..., bytes]


def by_git(run: Run, text: Path) -> list[bytes]:
    run("git", "init", "-q", "--bare", "repo")
    run("git", "-C", "repo", "fast-import", "--quiet", stdin=text.read_bytes())
    return [run("git", "-C", "repo", "fast-export", "--full-tree", "--all")]


def by_filter_repo(run: Run, text: Path) -> list[bytes]:
    run("git", "init", "-q", "--bare", "repo")
    run("git", "-C", "repo", "filter-repo", "--stdin", "--force", stdin=text.read_bytes())
    return [run("git", "-C", "repo", "fast-export", "--full-tree", "--all")]


def by_fossil(run: Run, text: Path) -> list[bytes]:
    run("fossil", "import", "--git", "repo", stdin=text.read_bytes())
    return [run("fossil", "export", "--git", "repo")]


def by_breezy(run: Run, text: Path) -> list[bytes]:
    run("brz", "fast-import", text, "repo")
    branches = run("brz", "branches", "--recursive", "repo").decode().split()
    export = ["brz", "fast-export", "--plain", "-b"]
    return [run(*export, branch, f"repo/{branch}") for branch in branches]


def by_reposurgeon(run: Run, text: Path) -> list[bytes]:
    return [run("sh", "-c", f"reposurgeon 'read <{text}' 'prefer git' 'write >back' && cat back")]


def by_darcs(run: Run, text: Path) -> list[bytes]:
    run("darcs", "convert", "import", "repo", stdin=text.read_bytes())
    back = run("darcs", "convert", "export", "--repodir", "repo")
    return [back.replace(b"refs/heads/master", b"refs/heads/main")]  # it has no branches


def by_fastimport(run: Run, text: Path) -> list[bytes]:
    return [run(PYTHON, "-c", PARSER, stdin=text.read_bytes())]


@dataclass(frozen=True)
class Reader:
    """A reader's program, and how histories come back: the word for all that aren't named, and the
    others."""

    program: str
    read: Callable[[Run, Path], list[bytes]]
    most: str
    others: dict[str, str] = field(default_factory=dict)

    def is_there(self) -> bool:
        if self.program == "fastimport":
            words = [PYTHON, "-c", "import fastimport.parser"]
            return not subprocess.run(words, capture_output=True).returncode
        return shutil.which(self.program, path=f"/usr/bin:{os.environ['PATH']}") is not None


def gone(ref: str) -> str:
    return f"{ref} is gone"


OTHER = "refs/heads/main has other files"
NAMES = {"UTF-8": OTHER, "Latin-1": OTHER}
REMOTE = gone("refs/remotes/origin/topic")
READERS = {
    "git": Reader("git", by_git, "names"),
    "git-filter-repo": Reader("git-filter-repo", by_filter_repo, "names"),
    "reposurgeon": Reader(
        "reposurgeon", by_reposurgeon, "names", {**NAMES, "tab": OTHER, "quote": "refused"}
    ),
    "python3-fastimport": Reader("fastimport", by_fastimport, "names", NAMES),
    "breezy": Reader(
        "brz",
        by_breezy,
        "names",
        {**NAMES, "module": OTHER, "tag": "files", "tag on a side": "files", "other ref": REMOTE},
    ),
    "fossil": Reader(
        "fossil",
        by_fossil,
        "files",
        {
            "merge": gone("refs/heads/topic"),
            "octopus": gone("refs/heads/t1"),
            "folder and file": OTHER,  # it reads this, and writes `D` behind `M`
            "module": OTHER,
            "tab": OTHER,
            "light tag": gone("refs/tags/light"),
            "other ref": REMOTE,
        },
    ),
    "darcs": Reader(
        "darcs",
        by_darcs,
        "files",
        {
            "merge": gone("refs/heads/topic"),
            "octopus": gone("refs/heads/t1"),
            "branch a/b": gone("refs/heads/a/b"),
            "tag": gone("refs/tags/v1"),
            "light tag": gone("refs/tags/light"),
            **dict.fromkeys(["two roots", "modes", "link", "module", "tab", "Latin-1"], OTHER),
            **dict.fromkeys(["tag on a side", "other ref"], OTHER),
        },
    ),
}

# ---- what came back

Shown = tuple[bytes, dict[bytes, bytes], int]


def shown(repository: Repository) -> Shown:
    """The refs; the files of each one's commit; and how many commits there are."""
    refs, commits = repository.peeled()
    files = {ref: repository.git("ls-tree", "-r", commits[ref]) for ref in refs}
    return repository.refs(), files, len(repository.commits()[0])


def lost(was: Shown, back: Shown) -> str:
    """What of a history isn't there any more: nothing, or one line."""
    for ref in sorted(was[1]):
        if ref not in back[1]:
            return gone(ref.decode())
        if was[1][ref] != back[1][ref]:
            return f"{ref.decode()} has other files"
    return "" if was[2] == back[2] else f"{back[2]} commits of {was[2]}"


def comes_back(reader: Reader, run: Run, text: Path, was: Shown, copy: Repository) -> str:
    """How a history comes back: `names`, `files`, or what is lost."""
    try:
        for stream in reader.read(run, text):
            copy.take(stream, "--force")
    except AssertionError as fault:
        return f"refused: {str(fault).strip().splitlines()[-1][:90]}"
    back = shown(copy)
    return "names" if back[0] == was[0] else lost(was, back) or "files"


@pytest.fixture
def run(gx: Program, places: Places) -> Run:
    """Runs a reader in a folder: what it prints, where it ends with 0."""
    folder = places.folder / "read"
    folder.mkdir()
    people = {"USER": "ann", "EMAIL": "ann@example.com", "BRZ_EMAIL": "ann@example.com"}
    # another python3 on the path doesn't see Debian's modules
    path = f"/usr/bin:{gx.environment['PATH']}"
    how = {"env": {**gx.environment, **people, "HOME": str(places.folder), "PATH": path}}

    def start(*words: Word, stdin: bytes = b"") -> bytes:
        return printed(run_program(list(words), stdin, cwd=folder, **how), list(words))

    return start


@pytest.mark.parametrize("story", stories())
@pytest.mark.parametrize("name", READERS)
def test_reader(name: str, story: str, run: Run, places: Places) -> None:
    reader = READERS[name]
    if not reader.is_there():
        pytest.skip(f"{name} isn't installed")
    store, repository = places.store("origin.gx"), places.repository("origin.git")
    store.take(b"".join(stories()[story].text))
    text = places.folder / "stream"
    text.write_bytes(store.changes("--no-done"))
    repository.take(text.read_bytes())
    answer = comes_back(reader, run, text, shown(repository), places.repository("copy.git"))
    assert answer.split(":")[0] == reader.others.get(story, reader.most)
