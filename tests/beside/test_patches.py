"""Has git apply what `gx diff -p` prints, between trees made at random: paths of any bytes, files
with and without a line feed at their ends, rights, links, submodules, empty files, and files and
directories in each other's place. The lines before the hunks are compared with git's, byte for byte.
"""

from __future__ import annotations

import random
import re
from collections.abc import Iterator
from pathlib import Path

from histories import FILE, LINK, MODULE, PROGRAM, Step, quoted
from hypothesis import given
from hypothesis import strategies as st
from places import MakePlaces, Places, Repository, Store, same
from programs import Done, counted, printed, run_program

PARTS = [b"a", b"b", b"a.b", b"c d", b"d ", b'q"q', b"t\tt", b"n\nn", b"\xc3\xa4", b"\xe4", b"z\\z"]
WORDS = [b"", b"x", b"y", b"-- a", b"++ b", b"@@ -1 +1 @@", b"\\ z", b"r\r", b"\xe4", b"z" * 90]
SETTINGS = ["-c", "core.quotePath=true", "-c", "core.symlinks=true", "-c", "core.fileMode=true"]
FORM = ["--full-index", "--no-renames", "--no-color", "--no-ext-diff", "--no-textconv"]
HEAD = re.compile(rb"@@ -\d+(?:,(\d+))? \+\d+(?:,(\d+))? @@")
Tree = dict[bytes, tuple[bytes, bytes]]


def bytes_of(chance: random.Random, mode: bytes, is_binary: bool) -> bytes:
    """What a file holds. The bytes of a submodule are its commit's name."""
    if mode == MODULE:
        return b"%040x" % chance.randrange(1, 4)
    if mode == LINK:
        return chance.choice([b"a", b"b/c", b"..", b"\xe4"])
    lines = [chance.choice(WORDS) for _ in range(chance.choice([0, 0, 1, 2, 5, 30]))]
    text = b"\n".join(lines) + chance.choice([b"", b"\n"])
    return text + b"\0" if is_binary else text


def changed(chance: random.Random, text: bytes) -> bytes:
    """The same text, some lines of which are gone, new or others."""
    lines = text.split(b"\n")
    for _ in range(chance.randrange(3)):
        place = chance.randrange(len(lines) + 1)
        lines[place : place + chance.randrange(3)] = chance.choices(WORDS, k=chance.randrange(3))
    return b"\n".join(lines)


def placed(tree: Tree, path: bytes, file: tuple[bytes, bytes]) -> None:
    """Sets a file: what is at its path, above it and below it goes."""
    for other in [*tree]:
        if (other + b"/").startswith(path + b"/") or path.startswith(other + b"/"):
            del tree[other]
    tree[path] = file


def trees(chance: random.Random, modes: list[bytes], binaries: bool) -> tuple[Tree, Tree]:
    """Two trees. Some files of the second one are those of the first, or much like them."""

    def one_more(tree: Tree) -> None:
        path = b"/".join(chance.choices(PARTS, k=chance.randrange(1, 4)))
        mode = chance.choice(modes)
        is_binary = binaries and chance.random() < 0.2
        placed(tree, path, (mode, bytes_of(chance, mode, is_binary)))

    old: Tree = {}
    for _ in range(chance.randrange(8)):
        one_more(old)
    new = dict(old)
    for path in [*new]:
        mode, text = new[path]
        way = chance.random()
        if way < 0.2:
            del new[path]
        elif way < 0.4 and mode in (FILE, PROGRAM):
            new[path] = (mode, changed(chance, text))
        elif way < 0.5 and mode in (FILE, PROGRAM):
            new[path] = (FILE if mode == PROGRAM else PROGRAM, text)
        elif way < 0.6:
            mode = chance.choice(modes)
            new[path] = (mode, bytes_of(chance, mode, False))
    for _ in range(chance.randrange(4)):
        one_more(new)
    return old, new


def stream(sides: tuple[Tree, Tree]) -> bytes:
    """A commit of each tree, on a branch of its own."""
    text = b""
    for name, tree in zip([b"old", b"new"], sides):
        text += b"commit refs/heads/%s\ncommitter A <a@x> 1 +0000\ndata 0\ndeleteall\n" % name
        for path, (mode, body) in tree.items():
            if mode == MODULE:
                text += b"M %s %s %s\n" % (mode, body, quoted(path))
            else:
                text += b"M %s inline %s\ndata %d\n%s\n" % (mode, quoted(path), len(body), body)
    return text


def stores(sides: tuple[Tree, Tree], places: Places) -> tuple[Repository, list[Store]]:
    """A repository of git, and stores of both trees, of version 2 and growing."""
    origin, plain = places.origin()
    step = Step([], stream(sides))
    origin.follow(step)
    plain.follow(origin)
    growing = plain.path.with_suffix(".growing")
    growing.write_bytes(plain.path.read_bytes())
    plain.gx.prints("grow", growing)
    return origin, [plain, Store(growing, plain.gx)]


def told(sides: list[Store], *words: bytes | str) -> bytes:
    """The patch, which is the same of both stores, and by each name of its option."""
    texts = [side.gx.prints("diff", option, side.path, *words) for option, side in
             [("-p", sides[0]), ("--patch", sides[1]), ("-u", sides[1])]]
    same(texts[1:], [texts[0]] * 2, f"patches of {words}")
    return texts[0]


def heads(patch: bytes) -> Iterator[bytes]:
    """The lines of a patch that stand in no hunk."""
    lines = iter(patch.split(b"\n"))
    for line in lines:
        if not (head := HEAD.match(line)):
            yield line
            continue
        old, new = (int(count or 1) for count in head.groups())
        while old or new:
            mark = next(lines)[:1]
            old -= mark in b" -" and mark != b""
            new -= mark in b" +" and mark != b""
            assert mark in (b" ", b"-", b"+", b"\\"), mark


def without_lacks(lines: Iterator[bytes]) -> list[bytes]:
    """The lines without those that tell that the last line of a hunk lacks its line feed."""
    return [line for line in lines if not line.startswith(b"\\ No newline")]


def compare_heads(git: Repository, patch: bytes) -> None:
    wanted = git.git(*SETTINGS, "diff", *FORM, "old", "new")
    same(without_lacks(heads(patch)), without_lacks(heads(wanted)), "heads")
    same(patch.count(b"\n\\ No newline"), wanted.count(b"\n\\ No newline"), "lines without an end")


def in_index(git: Repository, patch: bytes) -> bytes:
    """The tree that an index of the old tree has where the patch is applied to it."""
    environment = {**git.environment, "GIT_INDEX_FILE": str(git.path / "tried")}
    Path(environment["GIT_INDEX_FILE"]).unlink(missing_ok=True)

    def run(*words: str, stdin: bytes = b"") -> bytes:
        command = ["git", *SETTINGS, "-C", git.path, *words]
        return printed(run_program(command, stdin, env=environment), command)

    run("read-tree", "old")
    if patch:
        run("apply", "--cached", "--whitespace=nowarn", "--unidiff-zero", "-", stdin=patch)
    return run("write-tree").strip()


def in_folder(git: Repository, patch: bytes) -> bytes:
    """The tree of the files that a checkout of the old tree has where the patch is applied to it."""
    folder = git.path.with_name("checkout")
    folder.mkdir()
    environment = {**git.environment, "GIT_INDEX_FILE": str(git.path / "tried-files")}

    def run(*words: str, stdin: bytes = b"") -> bytes:
        command = ["git", *SETTINGS, "--git-dir", git.path, "--work-tree", folder, *words]
        return printed(run_program(command, stdin, env=environment, cwd=folder), command)

    run("read-tree", "old")
    run("checkout-index", "--all")
    if patch:
        command = ["git", *SETTINGS, "apply", "--whitespace=nowarn", "-"]
        bare = {**git.environment, "GIT_CEILING_DIRECTORIES": str(folder.parent)}
        printed(run_program(command, patch, env=bare, cwd=folder), command)
    run("read-tree", "--empty")
    run("add", "--all", "--force", ".")
    return run("write-tree").strip()


@given(chance=st.randoms(use_true_random=False))
def test_random_patches(chance: random.Random, new_places: MakePlaces) -> None:
    """In an index, where the submodules are, too."""
    for _ in range(12):
        sides = trees(chance, [FILE] * 5 + [PROGRAM, LINK, MODULE], False)
        with new_places() as places:
            git, found = stores(sides, places)
            patch = told(found, "old", "new")
            compare_heads(git, patch)
            same(in_index(git, patch), git.git("rev-parse", "new^{tree}").strip(), "trees")
            same(bool(patch), sides[0] != sides[1], "whether something is told")
            counted["patches applied"] += 1


@given(chance=st.randoms(use_true_random=False))
def test_checkouts(chance: random.Random, new_places: MakePlaces) -> None:
    """`gx diff -p A B | git apply` over a checkout of A gives B."""
    for _ in range(8):
        sides = trees(chance, [FILE] * 5 + [PROGRAM, LINK], False)
        with new_places() as places:
            git, found = stores(sides, places)
            tree = in_folder(git, told(found, "old", "new"))
            same(tree, git.git("rev-parse", "new^{tree}").strip(), "trees")


@given(chance=st.randoms(use_true_random=False))
def test_binary_files(chance: random.Random, new_places: MakePlaces) -> None:
    """Of binary files a line tells that they differ, where git has one, too."""
    for _ in range(8):
        sides = trees(chance, [FILE] * 4 + [PROGRAM], True)
        with new_places() as places:
            git, found = stores(sides, places)
            patch = told(found, "old", "new")
            compare_heads(git, patch)
            counted["binary files told"] += patch.count(b"\nBinary files ")


def test_nul_behind_the_front(new_places: MakePlaces) -> None:
    """A NUL counts among the first 8,000 bytes, and behind these the file is text."""
    sides: tuple[Tree, Tree] = ({}, {})
    for place in (0, 7999, 8000, 9000):
        text = bytearray(b"".join(b"%09d\n" % number for number in range(1000)))
        text[place] = 0
        sides[0][b"f%d" % place] = (FILE, bytes(text))
        sides[1][b"f%d" % place] = (FILE, b"y\n" + bytes(text))
    with new_places() as places:
        git, found = stores(sides, places)
        patch = told(found, "old", "new")
        compare_heads(git, patch)
        same(patch.count(b"\nBinary files "), 2, "binary files")


def test_answers(new_places: MakePlaces) -> None:
    """Exit statuses and paths are as in the other forms, and a form stands beside no other one."""
    sides = ({b"a/b": (FILE, b"1\n"), b"c": (FILE, b"2\n")}, {b"a/b": (FILE, b"3\n"), b"c": (LINK, b"2")})
    head = b"diff --git a/a/b b/a/b\nindex d00491fd7e5bb6fa28c517a0bb32b8b506539d4d"
    head += b"..00750edc07d6415dcc07ae0351e9397b0222b7ba 100644\n--- a/a/b\n+++ b/a/b\n"
    with new_places() as places:
        _, found = stores(sides, places)
        for side in found:
            asked = side.gx("diff", "-p", "--exit-code", side.path, "old", "new", "a")
            same(asked, Done(3, head + b"@@ -1 +1 @@\n-1\n+3\n", b""), "the patch of a path")
            same(side.gx("diff", "-p", "--quiet", side.path, "old", "new"), Done(3, b"", b""), "quiet")
            same(side.gx("diff", "-p", "--exit-code", side.path, "old", "old"), Done(0, b"", b""), "none")
            refused = side.gx("diff", "-p", side.path, "old", "nope")
            same(refused, Done(1, b"", b"gx: revision 2: UnknownRef\n"), "refusal")
            for other in ("--raw", "--count", "--name-only", "--name-status", "-z"):
                same(side.gx("diff", "-p", other, side.path, "old", "new").status, 2, other)
        turned = found[0].gx.prints("diff", "-p", found[0].path, "old", "new", "c")
        same(turned.count(b"diff --git a/c b/c\n"), 2, "parts of a type that changes")
        assert turned.index(b"deleted file mode 100644") < turned.index(b"new file mode 120000")
