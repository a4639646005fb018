"""Repositories of odd shapes: few trees with very many paths, deep and long paths, many commits and
blobs, and large files.
"""

from __future__ import annotations

from pathlib import Path

import pytest

from programs import Program
from store_files import named

HELLO = named("blob", b"hello\n")
COMMIT_OF_LONG = "106bf9efa0d8d75a8d7fe2b92c2c913530ae5493"
COMMIT = "commit refs/heads/main\ncommitter A <a@x> {} +0000\ndata 0\n"


def tree(*entries: tuple[str, str]) -> bytes:
    """A tree's body: the mode and the component of each entry, and its object."""
    return b"".join(
        front.encode() + b"\0" + bytes.fromhex(digits) for front, digits in entries
    )


def old_text(objects: list[tuple[str, bytes]], refs: str) -> bytes:
    """The text of version 1 of a store."""
    records = b"".join(b"%s %d\n%s\n" % (kind.encode(), len(body), body) for kind, body in objects)
    count = refs.count("\n")
    return b"gxstore 1\nobjects %d\n%srefs %d\n%send\n" % (
        len(objects),
        records,
        count,
        refs.encode(),
    )


def test_trees_with_very_many_paths(gx: Program, tmp_path: Path) -> None:
    """Forty trees name the one before twice, so that a commit has 2^40 paths."""
    objects = [("blob", b"hello\n"), ("tree", tree(("100644 f", HELLO)))]
    for _ in range(40):
        name = named(*objects[-1])
        objects.append(("tree", tree(("40000 a", name), ("40000 b", name))))
    root = named(*objects[-1])
    people = b"author A <a@x> 1 +0000\ncommitter A <a@x> 1 +0000\n"
    objects.append(("commit", b"tree %s\n%s\nm" % (root.encode(), people)))
    store = tmp_path / "store"
    store.write_bytes(old_text(objects, f"{named(*objects[-1])} refs/heads/main\n"))
    below = named(*objects[40])
    assert gx.prints("ls", store, "main").decode() == "".join(
        f"040000 tree {below}\t{name}\n" for name in "ab"
    )
    deep = "a/" * 40 + "f"
    assert gx.prints("show", store, f"main:{deep}") == b"hello\n"
    gx.prints("gc", store)
    text = store.read_bytes()
    assert text.startswith(b"gxstore 2\nobjects 43\n")
    gx.prints("gc", store)
    assert store.read_bytes() == text
    again = b"commit refs/heads/again\ncommitter A <a@x> 2 +0000\ndata 0\nfrom main\n"
    gx.prints("import", store, stdin=again + b"M 100644 inline g\ndata 5\nagain\n")
    assert gx.prints("show", store, f"again:{deep}") == b"hello\n"
    assert gx.prints("show", store, "again:g") == b"again"


def test_path_of_2048_components(gx: Program, new_store) -> None:
    path = "a/" * 2047 + "a"
    assert len(path) == 4095
    stream = COMMIT.format(1) + f"M 100644 inline {path}\ndata 6\nhello\n"
    store = new_store(stream.encode())
    assert gx.prints("show", store, f"main:{path}") == b"hello\n"
    listed = gx.prints("ls", "-r", store, "main")
    assert listed.decode() == f"100644 blob {HELLO}\t{path}\n"
    again = new_store(gx.prints("export", store), "again")
    assert again.read_bytes() == store.read_bytes()


@pytest.mark.parametrize("length, told", [(4, b""), (5, b"gx: store: BadObject\n")])
def test_longest_path_of_a_store(gx: Program, tmp_path: Path, length: int, told: bytes) -> None:
    """A path of 4,095 bytes is read, and one of a byte more isn't."""
    below = ("tree", tree(("100644 " + "a" * 4090, HELLO)))
    above = ("tree", tree(("40000 " + "b" * length, named(*below))))
    store = tmp_path / "store"
    store.write_bytes(old_text([("blob", b"hello\n"), below, above], ""))
    done = gx("ls", "-r", store, named(*above))
    assert done.err == told
    if not told:
        path = "b" * length + "/" + "a" * 4090
        assert done.out.decode() == f"100644 blob {HELLO}\t{path}\n"
        gx.prints("import", store)
        text = store.read_bytes()
        assert text.startswith(b"gxstore 2\nobjects 3\n")
        gx.prints("import", store)
        assert store.read_bytes() == text


def test_line_of_many_commits(gx: Program, new_store) -> None:
    store = new_store("".join(COMMIT.format(number) for number in range(10000)).encode())
    names = gx.prints("log", store, "main").split()
    assert len(names) == 10000
    ends = gx.prints("rev-parse", store, "main", "main~9999").split()
    assert ends == [names[0], names[-1]]
    done = gx("rev-parse", store, "main~10000")
    assert (done.status, done.out, done.err) == (1, b"", b"gx: revision 1: NoParent\n")


@pytest.mark.parametrize("size", [65535, 65536])
def test_large_object_goes_out_whole(gx: Program, new_store, size: int) -> None:
    body = b"a" * size
    digits = named("blob", body).encode()
    store = new_store(b"blob\ndata %d\n%s\n" % (size, body))
    printed = gx.prints("batch", store, stdin=digits + b"\n")
    assert printed == b"%s blob %d\n%s\n" % (digits, size, body)


def test_keys_of_hashes_show_in_no_text(gx: Program, new_store) -> None:
    """Each run has other keys, and writes the same text."""
    numbers = [b"%d" % number for number in range(2000)]
    stream = b"".join(b"blob\ndata %d\n%s\n" % (len(number), number) for number in numbers)
    records = b"".join(
        b"blob %d %s\n%s\n" % (len(number), named("blob", number).encode(), number)
        for number in numbers
    )
    text = b"gxstore 2\nobjects 2000\n" + records + b"refs 0\nend\n"
    for run in range(3):
        assert new_store(stream, f"store{run}").read_bytes() == text


# files of each mode, a link of 120 bytes, paths of 181 and 162 bytes, and a time of 2^33 seconds
LONG = f"""\
commit refs/heads/main
author A <a@x> 1 +0000
committer A <a@x> 8589934592 +0000
data 2
m

M 100644 inline a
data 6
hello

M 100755 inline b
data 6
hello

M 120000 inline c
data 120
{"t" * 120}
M 100644 inline {"d" * 90}/{"f" * 90}
data 6
hello

M 100644 inline {"e" * 160}/g
data 6
hello

M 160000 {"7a" * 20} s
"""
# a revision, a prefix, and the archive of git as `git hash-object` names it; of a tree, git's has
# the time of the clock, in place of which 0 was put
ARCHIVES = [
    (COMMIT_OF_LONG, "", "0b1af6dfbdf0a0f6bef96c77fdf86950e8018bcb"),
    (f"{COMMIT_OF_LONG}^{{tree}}", "", "24884bbca5075e6d934d64a7032322ae93a7aba4"),
    (COMMIT_OF_LONG, "p//", "3b7b059eeed23ce694c9e3c22f4c957f050714bc"),
    ("57d9b958ef6995703937d5b5884baa8207e9e3a5", "q", "577091fc022af8231fbb599a5c8fd88253c0b375"),
]


@pytest.mark.parametrize("revision, prefix, name", ARCHIVES)
def test_archives_are_those_of_git(
    gx: Program, new_store, revision: str, prefix: str, name: str
) -> None:
    store = new_store(LONG.encode())
    text = gx.prints("archive", f"--prefix={prefix}", store, revision)
    assert named("blob", text) == name
    assert len(text) % 10240 == 0
    done = gx("archive", store, HELLO)
    assert (done.status, done.out, done.err) == (1, b"", b"gx: revision 1: WrongKind\n")


EMPTY_TREE = "4b825dc642cb6eb9a060e54bf8d69288fbee4904"


def commit_body(parents: list[str], time: int) -> bytes:
    """The body of a commit without files, as the format of objects says."""
    lines = [f"tree {EMPTY_TREE}", *(f"parent {name}" for name in parents)]
    lines += [f"author A <a@x> {time} +0000", f"committer A <a@x> {time} +0000", "", ""]
    return "\n".join(lines).encode()


@pytest.mark.parametrize("merges", [17, 100, 10_000])
def test_any_number_of_parents(gx: Program, new_store, merges: int) -> None:
    marks = range(1, merges + 2)
    parents = [named("commit", commit_body([], mark)) for mark in marks]
    stream = "".join(
        f"commit refs/heads/b\nmark :{mark}\ncommitter A <a@x> {mark} +0000\ndata 0\n"
        "reset refs/heads/b\n"
        for mark in marks
    )
    stream += COMMIT.format(0) + "from :1\n"
    stream += "".join(f"merge :{mark}\n" for mark in marks[1:]) + "D a\n"
    store = new_store(stream.encode())
    assert gx.prints("show", store, "main") == commit_body(parents, 0)
    assert gx.prints("rev-parse", store, f"main^{merges + 1}").decode() == f"{parents[-1]}\n"
