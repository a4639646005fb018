"""Asks `gx diff` what differs between revisions of histories made at random, and compares it with
git, byte for byte: files and directories in each other's place, types, rights, submodules, and
paths of any bytes.
"""

from __future__ import annotations

import random

from histories import Step, histories
from hypothesis import given
from hypothesis import strategies as st
from places import MakePlaces, Places, Repository, Store, same
from programs import Done, counted, run_program

FORMS = [[b"--name-status"], [b"--name-only"], [b"--raw"], [b"--raw", b"-z"]]
FORMS += [[b"--name-status", b"-z"], [b"--name-only", b"-z"]]
LETTERS = b"ADMT"


def stores(steps: list[Step], places: Places) -> tuple[Repository, list[Store]]:
    """A repository of git, and stores of the same history, of version 2 and growing."""
    origin, plain = places.origin()
    for step in steps:
        origin.follow(step)
    plain.follow(origin)
    growing = plain.path.with_suffix(".growing")
    growing.write_bytes(plain.path.read_bytes())
    plain.gx.prints("grow", growing)
    return origin, [plain, Store(growing, plain.gx)]


def wanted(git: Repository, words: list[bytes], paths: list[bytes]) -> bytes:
    """What git tells. It takes a path with a slash at its end for a submodule's, too."""
    command = ["git", "--literal-pathspecs", "-C", git.path, "diff-tree", "-r", "--no-renames"]
    done = run_program([*command, *words, b"--", *paths], env=git.environment)
    assert done.status == 0, done.err
    return done.out


def told(sides: list[Store], words: list[bytes], paths: list[bytes]) -> Done:
    """What gx tells, which is the same of both stores."""
    answers = [side.gx("diff", side.path, *words, b"--", *paths) for side in sides]
    same(answers[1], answers[0], f"answers to {words} {paths}")
    assert answers[0].err == b""
    return answers[0]


def operands(paths: list[bytes]) -> list[bytes]:
    """The paths that an operand can name, with their directories; and some that are nowhere."""
    found = {b"nowhere", b"a/nowhere", b"a."}
    for path in paths:
        parts = path.split(b"/")
        found |= {b"/".join(parts[:count]) for count in range(1, len(parts) + 1)}
    return sorted(path for path in found if path.decode("utf-8", "replace").encode() == path)


def compare_forms(git: Repository, sides: list[Store], old: bytes, new: bytes) -> None:
    for form in FORMS:
        found = told(sides, [*form, old, new], [])
        same(found, Done(0, wanted(git, [*form, old, new], []), b""), f"{form} {old} {new}")
    lines = wanted(git, [b"--name-status", b"-z", old, new], []).split(b"\0")[:-1:2]
    counts = [b"%c\t%d\n" % (letter, lines.count(b"%c" % letter)) for letter in LETTERS]
    same(told(sides, [b"--count", old, new], []).out, b"".join(counts), f"counts {old} {new}")
    for form in ([b"--quiet"], [b"--exit-code"], [b"--exit-code", b"--count"]):
        same(told(sides, [*form, old, new], []).status, 3 if lines else 0, f"{form} {old} {new}")
    assert told(sides, [b"--quiet", old, new], []).out == b""
    for letter in LETTERS:
        counted[f"paths with {letter:c}"] += lines.count(b"%c" % letter)


def compare_paths(
    git: Repository, sides: list[Store], ends: list[bytes], chance: random.Random
) -> None:
    """Paths, as git has them: one with a slash is tried where no submodule stands at it."""
    given_paths = wanted(git, [b"--name-only", b"-z", *ends], []).split(b"\0")[:-1]
    modules = wanted(git, [b"--raw", b"-z", *ends], []).split(b"\0")
    gitlinks = {path for head, path in zip(modules[::2], modules[1::2]) if b"160000" in head}
    for _ in range(3):
        some = operands(given_paths)
        paths = [chance.choice(some) for _ in range(chance.randrange(1, 4))]
        ends_of = [b"" if path in gitlinks or chance.random() < 0.7 else b"/" for path in paths]
        paths = [path + end for path, end in zip(paths, ends_of)]
        found = told(sides, [b"--raw", *ends], paths).out
        same(found, wanted(git, [b"--raw", *ends], paths), f"{ends} {paths}")
        status = told(sides, [b"--quiet", *ends], paths).status
        same(status, 3 if found else 0, f"status of {ends} {paths}")


@given(steps=histories(5), chance=st.randoms(use_true_random=False))
def test_random_differences(
    steps: list[Step], chance: random.Random, new_places: MakePlaces
) -> None:
    with new_places() as places:
        git, sides = stores(steps, places)
        names = git.git("rev-list", "--all").split()
        for _ in range(4):
            ends = [chance.choice(names), chance.choice(names)]
            parents = git.git("log", "-1", "--format=%P", ends[1]).split()
            if parents and chance.random() < 0.6:
                ends[0] = chance.choice(parents)
            compare_forms(git, sides, *ends)
            compare_paths(git, sides, ends, chance)


def test_refusals(new_places: MakePlaces) -> None:
    """A word that gives no tree is refused by its number, and so are lines that ask for two forms."""
    stream = b"commit refs/heads/main\nmark :1\ncommitter A <a@x> 1 +0000\ndata 0\n"
    stream += b"M 100644 inline -a\ndata 1\nx\n"
    with new_places() as places:
        git, (plain, growing) = stores([Step([], stream)], places)
        del git
        for words, line in [
            ([b"main", b"nope"], b"gx: revision 2: UnknownRef\n"),
            ([b"main:-a", b"nope"], b"gx: revision 1: WrongKind\n"),
        ]:
            for side in (plain, growing):
                found = side.gx("diff", side.path, *words)
                same(found, Done(1, b"", line), f"refusal of {words}")
        for words in [[b"main"], [b"--raw", b"--count", b"main", b"main"], [b"--all", b"main", b"main"]]:
            found = plain.gx("diff", plain.path, *words)
            same((found.status, found.out), (2, b""), f"refusal of {words}")
        empty = b"4b825dc642cb6eb9a060e54bf8d69288fbee4904"
        found = plain.gx("diff", "--exit-code", "--", plain.path, b"main", b"main", b"-a")
        same(found, Done(0, b"", b""), "what a path of one revision tells")
        same(plain.gx("diff", plain.path, empty, b"main").status, 1, "a tree that isn't there")
