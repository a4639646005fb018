"""Growing stores: every question is answered as over the same store of version 2, every change
leaves the same, and what is damaged is refused as a reader of another hand refuses it.
"""

from __future__ import annotations

import hashlib
import os
import random
import re
import subprocess
from itertools import islice
from pathlib import Path

import pytest

from growing_reading import verdict
from growing_texts import GrowingText, Record, slot
from programs import TOP, Program, counted
from sessions import Runner, Session, Step, Wrong, command_of, sessions_of, shown
from store_files import NEW, OLD, STREAM, branch_stream, named

EMPTY = 262
SLOTS = {b"a": 12, b"b": 119}
A_STORE = "a store that grows\n"
# tags, trees without entries, and those of directories
UNKNOWN_KIND = re.compile(rb"^(?:tag \d|tree 0 |40000 )", re.M)


def grown(gx: Program, folder: Path, text: bytes) -> Path:
    """A growing store of a store's text."""
    store = folder / "grown"
    store.write_bytes(text)
    gx.prints("grow", store)
    return store


def exported(gx: Program, store: Path) -> bytes:
    return gx.prints("export", store)


# ---- sessions

DATA = TOP / "crates/gx_sessions/data"
OWN = TOP / "tests/growing"


def key_of(session: Session) -> tuple[str, str]:
    """A session's file and title."""
    return session.file.name, session.title


def sessions_in(folder: Path) -> list[Session]:
    """Those that the program can follow."""
    files = sorted(folder.glob("*.session"))
    return [session for file in files for session in sessions_of(file) if not session.short]


def left_out() -> dict[tuple[str, str], tuple[str, str, str]]:
    """The sessions that can't run over growing stores, by file and title: why that is, and the file
    and the title of the one that stands for it."""
    lines = (OWN / "left-out.tsv").read_text().splitlines()[1:]
    rows = [line.split("\t") for line in lines]
    assert rows == sorted(rows), "left-out.tsv is sorted"
    found = {(file, title): (why, own, its_title) for file, title, why, own, its_title in rows}
    assert len(found) == len(rows), "left-out.tsv has each session once"
    return found


LEFT_OUT = left_out()


class GrowingRunner(Runner):
    """Runs a session whose stores are growing ones."""

    def held(self, store: Path) -> str:
        """What a store holds, as gx verify tells it."""
        source = os.open(os.devnull, os.O_RDONLY)
        _, told, _ = self.spawn(["verify", store.name], source, subprocess.PIPE)
        os.close(source)
        counts = dict(line.split(" ") for line in told.decode().splitlines())
        return f"objects: {counts['objects']}, refs: {counts['refs']}"


class GrownRunner(GrowingRunner):
    """Runs a session over growing stores: each store file grows before a command has it."""

    def grow(self, words: list[str]) -> None:
        """Has those of the words grow that are stores of another version, as each of them has to."""
        for name in set(words) & set(os.listdir(self.folder)):
            if (self.folder / name).read_bytes().startswith((b"gxstore 1\n", b"gxstore 2\n")):
                status, _, told = self.run_gx(Step(0, ""), ["grow", name], None)
                if status:
                    raise Wrong(A_STORE, shown(told))

    def do(self, step: Step) -> None:
        self.grow(command_of(step.text)[0][1:])
        super().do(step)


class ReadRunner(GrowingRunner):
    """Runs a session of growing stores, and holds what gx verify is to say to another reader."""

    def do(self, step: Step) -> None:
        words, _, _ = command_of(step.text)
        if words[:2] == ["gx", "verify"]:
            text = (self.folder / words[2]).read_bytes()
            said = step.printed + step.told
            if is_known(text) and verdict(text).encode() != said:
                raise Wrong(shown(said), f"of the other reader: {verdict(text)}")
            counted["texts of sessions that another reader reads"] += is_known(text)
        super().do(step)


def is_known(text: bytes) -> bool:
    """Whether the other reader knows the kinds of objects that a growing text has, but for trees of
    more than a file."""
    return text.startswith(b"gxstore 3\n") and not UNKNOWN_KIND.search(text)


def pytest_generate_tests(metafunc: pytest.Metafunc) -> None:
    shared = sessions_in(DATA)
    for name, found in {
        "session": [session for session in shared if key_of(session) not in LEFT_OUT],
        "left": [session for session in shared if key_of(session) in LEFT_OUT],
        "own": sessions_in(OWN),
    }.items():
        if name in metafunc.fixturenames:
            ids = [f"{it.file.name}:{it.number}" for it in found]
            metafunc.parametrize(name, found, ids=ids)


def test_session(session: Session, gx_path: Path, tmp_path: Path) -> None:
    """A session's commands over growing stores answer what they answer over others."""
    counted["commands of sessions"] += len(session.steps)
    wrong = GrownRunner(gx_path, tmp_path).first_wrong(session)
    if wrong:
        pytest.fail(f"{session.title}\n{wrong[1]}", pytrace=False)


def test_left_out(left: Session, gx_path: Path, tmp_path: Path) -> None:
    """A session is left out only where it shows a store's text, or gives one that is no store's."""
    wrong = GrownRunner(gx_path, tmp_path).first_wrong(left)
    assert wrong, "it runs over growing stores"
    is_shown = command_of(wrong[0].text)[0] == ["cat", "store"]
    assert not is_shown or (tmp_path / "store").read_bytes().startswith(b"gxstore 3\n")
    assert is_shown or f"expected:\n{A_STORE}" in wrong[1], wrong[1]
    assert LEFT_OUT[key_of(left)][0] == ("shown" if is_shown else "refused")


def test_own_stand_for() -> None:
    """Each session that is left out is there, and so is the one that stands for it."""
    own = {key_of(session) for session in sessions_in(OWN)}
    assert set(LEFT_OUT) <= {key_of(session) for session in sessions_in(DATA)}
    assert {row[1:] for row in LEFT_OUT.values()} <= own


def test_own(own: Session, gx_path: Path, tmp_path: Path) -> None:
    """The sessions of growing stores, in which another reader says what gx verify does."""
    counted["commands of sessions"] += len(own.steps)
    wrong = ReadRunner(gx_path, tmp_path).first_wrong(own)
    if wrong:
        pytest.fail(f"{own.title}\n{wrong[1]}", pytrace=False)


# ---- the commands of growing stores


def test_empty(gx: Program, tmp_path: Path) -> None:
    """An empty growing store is that of another hand, and the grown one of an empty store."""
    store = tmp_path / "store"
    gx.prints("init", "--growing", store)
    text = GrowingText()
    text.append([], {})
    assert store.read_bytes() == text.text()
    assert len(text.text()) == EMPTY
    other = tmp_path / "other"
    gx.prints("init", other)
    gx.prints("grow", other)
    assert other.read_bytes() == store.read_bytes()


@pytest.mark.parametrize("text", [OLD, NEW], ids=["1", "2"])
def test_grow(gx: Program, tmp_path: Path, text: bytes) -> None:
    """A store grows into one with the same export, and a grown one is left alone."""
    plain = tmp_path / "plain"
    plain.write_bytes(text)
    store = grown(gx, tmp_path, text)
    once = store.stat()
    assert verdict(store.read_bytes()) == gx.prints("verify", store).decode()
    assert exported(gx, store) == exported(gx, plain)
    gx.prints("grow", store)
    assert store.stat() == once


CHANGES = {
    "import": (["import"], branch_stream(7)),
    "import-done": (["import", "--done"], branch_stream(7) + b"done\n"),
    "refused": (["import"], b"foo\n"),
    "drop": (["drop", "refs/heads/main"], b""),
    "unknown": (["drop", "refs/heads/none"], b""),
    "set-ref": (["set-ref", "refs/heads/other", "refs/heads/main"], b""),
    "gc": (["gc"], b""),
}


@pytest.mark.parametrize("change", CHANGES)
def test_change(gx: Program, tmp_path: Path, change: str) -> None:
    """A change of a growing store leaves it growing, with what it leaves of version 2."""
    (command, *words), stdin = CHANGES[change]
    plain = tmp_path / "plain"
    plain.write_bytes(NEW)
    store = grown(gx, tmp_path, NEW)
    done = [gx(command, each, *words, stdin=stdin) for each in (plain, store)]
    assert (done[0].status, done[0].out) == (done[1].status, done[1].out)
    assert done[0].err == done[1].err
    assert exported(gx, store) == exported(gx, plain)
    assert store.read_bytes().startswith(b"gxstore 3\n")
    again = tmp_path / "again"
    again.write_bytes(plain.read_bytes())
    gx.prints("grow", again)
    assert gx.prints("refs", again) == gx.prints("refs", store)


def test_put(gx: Program, tmp_path: Path) -> None:
    """A growing text that is put stays one, and one with several segments is written anew."""
    store = tmp_path / "store"
    gx.prints("put", store, "--expect-stamp=new", stdin=written(3, 1))
    assert store.read_bytes().startswith(b"gxstore 3\na\n")
    assert verdict(store.read_bytes()) == gx.prints("verify", store).decode()


# ---- texts of another hand

PERSON = b"A <a> %d +0000"


def history(number: int, parent: bytes | None) -> tuple[list[Record], bytes]:
    """A blob, a tree and a commit, and the commit's name."""
    body = b"version %d\n" % number
    blob = Record(b"blob", bytes.fromhex(named("blob", body)), body)
    body = b"100644 f%d\0" % number + blob.name
    tree = Record(b"tree", bytes.fromhex(named("tree", body)), body)
    person = PERSON % number
    body = b"tree %s\n" % tree.name.hex().encode()
    body += b"parent %s\n" % parent.hex().encode() if parent else b""
    body += b"author %s\ncommitter %s\n\nc%d" % (person, person, number)
    commit = Record(b"commit", bytes.fromhex(named("commit", body)), body)
    return [blob, tree, commit], commit.name


def written(segments: int, commits: int) -> bytes:
    """The text of another hand: so many segments of so many commits, one behind the other."""
    text, last = GrowingText(), None
    for segment in range(segments):
        records = []
        for number in range(segment * commits, (segment + 1) * commits):
            more, last = history(number, last)
            records += more
        refs = {b"refs/heads/main": last, b"refs/heads/b%d" % segment: last} if last else {}
        text.append(records, refs)
    return text.text()


SIZES = [(1, 0), (1, 1), (2, 1), (5, 1), (3, 3), (1, 400), (2, 300)]


@pytest.mark.parametrize(("segments", "commits"), SIZES)
def test_another_hand(gx: Program, tmp_path: Path, segments: int, commits: int) -> None:
    """A text of another writer is read, and answers as its export does in version 2."""
    store, plain = tmp_path / "store", tmp_path / "plain"
    store.write_bytes(written(segments, commits))
    assert gx.prints("verify", store).decode() == verdict(store.read_bytes())
    assert verdict(store.read_bytes()).startswith("version 3\n")
    stream = exported(gx, store)
    gx.prints("init", plain)
    gx.prints("import", plain, stdin=stream)
    for words in (["refs"], ["export"], *([["log"], ["show"]] if commits else [])):
        more = ["refs/heads/main"] if words[0] in ("log", "show") else []
        assert gx.prints(words[0], store, *more) == gx.prints(words[0], plain, *more)


def test_behind_the_end(gx: Program, tmp_path: Path) -> None:
    """What stands behind the end is no part of the text."""
    store = tmp_path / "store"
    store.write_bytes(written(2, 1) + b"left by a run that was killed\n")
    assert gx.prints("verify", store).decode() == verdict(store.read_bytes())
    gx.prints("import", store, stdin=STREAM)
    assert b"killed" not in store.read_bytes()


def mended(text: bytes) -> bytes:
    """The text with the digest of its last tail in the picked slot, where that tells a tail."""
    at = SLOTS[b"a" if text[10:11] == b"a" else b"b"]
    try:
        ends, tail = int(text[at : at + 20]), int(text[at + 21 : at + 41])
    except ValueError:
        return text
    if not 0 <= tail <= ends <= len(text):
        return text
    return text[:at] + slot(ends, tail, hashlib.sha256(text[tail:ends]).digest()) + text[at + 106 :]


COUNT = re.compile(rb"(?m)^(?:objects|rows|runs|refs) (\d+)$|^(\d+) (\d+) [0-9a-f]{64}$")


def recounted(text: bytes, randoms: random.Random) -> bytes:
    """The text with another number in a line."""
    line = randoms.choice(list(COUNT.finditer(text)))
    group = randoms.choice([group for group in (1, 2, 3) if line[group]])
    number = max(0, int(line[group]) + randoms.choice([-28, -1, 1, 28, -226, 585, 2**63, 2**64]))
    return text[: line.start(group)] + b"%d" % number + text[line.end(group) :]


def damaged(text: bytes, randoms: random.Random) -> bytes:
    """The text with one part changed, cut, doubled or swapped."""
    at = randoms.randrange(min(randoms.choice([226, len(text), len(text)]), len(text)))
    if randoms.random() < 0.3:
        at = max(0, len(text) - 1 - at % 400)
    turned = bytes([randoms.choice([randoms.randrange(256), *b"0123456789abcdef \n"])])
    other = randoms.randrange(at, len(text))
    ways = [
        text[:at] + turned + text[at + 1 :],
        text[:at] + text[at + randoms.randint(1, 30) :],
        text[:at] + text[other : other + 40] + text[at:],
        text[:at],
        text + turned * randoms.randint(1, 50),
        text[:10] + randoms.choice([b"a", b"b", b"X", b"\n"]) + text[11:],
        b"".join((text[:at], text[other:], text[at:other])),
        recounted(text, randoms),
    ]
    return randoms.choice(ways)


def draw(randoms: random.Random) -> bytes:
    """A damaged text of another hand, half of the time with its tail's digest mended."""
    text = written(randoms.randint(1, 3), randoms.randint(0, 2))
    for _ in range(randoms.choice([1, 1, 1, 2])):
        text = damaged(text, randoms) or b"\n"
        if len(text) < 12 or not COUNT.search(text):
            return text
    return mended(text) if randoms.random() < 0.5 else text


def try_damaged(gx: Program, store: Path, randoms: random.Random, texts: int) -> None:
    """Holds the verdict on each of so many damaged texts to that of another reader."""
    drawn = iter(lambda: draw(randoms), None)
    growing = filter(lambda text: text.startswith(b"gxstore 3\n"), drawn)
    for number, text in enumerate(islice(growing, texts)):
        store.write_bytes(text)
        done = gx("verify", store)
        assert (done.out + done.err).decode() == verdict(text), f"text {number}"
        assert done.status == (0 if done.out else 1)
        counted["damaged texts"] += 1


def test_damaged(gx: Program, tmp_path: Path, randoms: random.Random) -> None:
    """Two thousand damaged texts get the verdict of another reader."""
    try_damaged(gx, tmp_path / "store", randoms, 2000)


@pytest.mark.long
def test_many_damaged(gx: Program, tmp_path: Path, randoms: random.Random) -> None:
    """So do twenty thousand."""
    try_damaged(gx, tmp_path / "store", randoms, 20000)
