"""Streams that are imported, exported in each form, and imported again."""

from __future__ import annotations

from pathlib import Path

import pytest

from programs import Program
from sessions import counts
from store_files import named
from streams import MERGED

# files of all modes and odd names, merges, tags, and a line of progress
ODD = b"""\
blob
mark :1
data 5
one
x
commit refs/heads/main
mark :2
author A U Thor <a@x> 1700000000 +0100
committer C O Mitter <c@x> 1700000001 -0130
data 6
first
M 100644 :1 "a b\\"\\303\\244"
M 100755 inline dir/sub/run
data 2
go
M 120000 inline dir/link
data 3
run
M 160000 d670460b4b4aece5915caf5c68d12f560a9fe3e4 mod

commit refs/heads/side
mark :3
committer A <a@x> 2 +0000
data 4
side
from :2
R dir "moved dir"
C "a b\\"\\303\\244" copy
D mod

progress half
commit refs/heads/main
mark :4
committer A <a@x> 3 +0000
data 5
other
M 100644 inline dir.t
data <<E
hello
E

commit refs/heads/main
mark :5
committer A <a@x> 4 +0000
data 5
merge
merge :3
R dir/sub sub

tag v1.0
from :5
tagger A <a@x> 5 +0000
data 3
one
tag old/v0
from :2
data 0
reset refs/heads/kept
from :3
"""

# revisions and paths of it, with the modes and the bytes of the files there
FILES = [
    ("main", 'a b"\u00e4', "100644", b"one\nx"),
    ("main", "dir.t", "100644", b"hello\n"),
    ("main", "sub/run", "100755", b"go"),
    ("main", "dir/link", "120000", b"run"),
    ("main^2", "moved dir/sub/run", "100755", b"go"),
    ("side", "copy", "100644", b"one\nx"),
    ("v1.0~2", "dir/sub/run", "100755", b"go"),
    ("old/v0", "dir/link", "120000", b"run"),
]


def changes(number: int) -> str:
    """The changes of the commit with this number."""
    fourth = number % 4
    return [
        f'M 100644 inline "d\\303\\244/\\t{fourth}"\ndata 2\n{fourth}x\n',
        f"M 100755 inline a/b/c{fourth}\ndata <<E\n{number}\nE\n",
        f"M 120000 inline a.b\ndata 1\n{fourth}\nM 644 inline a0\ndata 0\n",
        f"M 160000 {number:040} sub{fourth}\n",
        f"D a\nM 644 inline a\ndata 1\n{fourth}\nR a dir/a\nC dir copy\n",
        "deleteall\n",
    ][number % 6]


def commit(number: int) -> str:
    """The commit with this number, which is its mark, and the tags and branches behind it."""
    branch = ("zero", "one", "two")[number % 3]
    encoding = "encoding ISO-8859-1\n" if number % 5 == 0 else ""
    text = (
        f"commit refs/heads/{branch}\nmark :{number}\nauthor B C <b@x> {number} -0130\n"
        f"committer A <a@x> {number} +0200\n{encoding}data 3\nc\n\n"
    )
    if number % 7 == 0:
        text += f"merge :{number // 2}\n"
    text += changes(number)
    if number % 10 == 0:
        text += f"tag t{number}\nfrom :{number}\ntagger A <a@x> {number} +0000\ndata 1\nt\n"
        text += f"tag old/t{number}\nfrom :{number // 2}\ndata 0\n"
    if number % 9 == 0:
        text += f"reset refs/heads/s{number}\nfrom :{number}\n"
    return text


# sixty commits on three branches with merges, tags on tips and on old commits, branches on commits
# that others hold, one under the name that carries an export's commits, submodules, empty trees,
# encodings, and a blob and a commit that no ref reaches
HISTORY = (
    "blob\ndata 4\nlost\n"
    + "".join(map(commit, range(1, 61)))
    + "commit refs/heads/lost\ncommitter A <a@x> 99 +0000\ndata 4\nlost\nreset refs/heads/lost\n"
    "reset refs/heads/shared\nfrom :60\nreset refs/heads/old\nfrom :9\n"
    "reset refs/gx/export\nfrom :20\n"
).encode()

STREAMS = {"nothing": b"", "a blob": b"blob\ndata 4\nlost\n", "two branches": MERGED, "odd": ODD}
STREAMS["many"] = HISTORY
FORMS = {"all files": [], "changes": ["--changes"], "open": ["--changes", "--no-done"]}


def quoted(path: str) -> str:
    """A path as `ls` prints it."""
    return '"a b\\"\\303\\244"' if path == 'a b"\u00e4' else path


def objects(store: Path) -> int:
    return int(counts(store.read_bytes()).split(",")[0].removeprefix("objects: "))


@pytest.mark.parametrize("form", FORMS)
@pytest.mark.parametrize("name", STREAMS)
def test_stream_comes_back(gx: Program, new_store, name: str, form: str) -> None:
    first = new_store(STREAMS[name], "first")
    text = gx.prints("export", *FORMS[form], first)
    assert text.startswith(b"feature done\n") == (form != "open")
    assert text.endswith(b"done\n") == (form != "open")
    again = new_store(text, "again")
    for question in ("refs", "log --parents --all", "export", "export --changes"):
        assert gx.prints(*question.split(), first) == gx.prints(*question.split(), again)
    assert (gx.prints("refs", first) != b"") == (name not in ("nothing", "a blob"))
    assert objects(again) <= objects(first)
    assert gx.prints("export", *FORMS[form], again) == text
    twice = new_store(text, "twice")
    assert twice.read_bytes() == again.read_bytes()


def test_files_come_back(gx: Program, new_store) -> None:
    first = new_store(name="first")
    done = gx("import", "--report", first, stdin=ODD)
    assert (done.status, done.out) == (0, b"progress half\n")
    told = done.err.splitlines()[-1]
    assert told.startswith(b"gx: commands: 9, ") and told.endswith(b", refs: 5")
    text = gx.prints("export", first)
    assert text.startswith(b"feature done\nblob\nmark :1\ndata 5\none\nx\n")
    for store in (first, new_store(text, "again")):
        for revision, path, mode, body in FILES:
            assert gx.prints("show", store, f"{revision}:{path}") == body
            entry = f"{mode} blob {named('blob', body)}\t{quoted(path)}\n"
            assert entry.encode() in gx.prints("ls", "-r", store, revision)
        module = b"160000 commit d670460b4b4aece5915caf5c68d12f560a9fe3e4\tmod\n"
        assert module in gx.prints("ls", store, "main")
        assert gx("show", store, "side:mod").err == b"gx: revision 1: NoSuchPath\n"


def test_refused_stream_makes_no_trip(gx: Program) -> None:
    done = gx("check", stdin=b"progress x\nfoo\n")
    assert (done.status, done.out) == (1, b"progress x\n")
    assert done.err == b"gx: command 2: UnknownCommand\n"
