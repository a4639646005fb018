"""`gx set-ref`: refs that are set and removed, all of a run's or none, from what they have to be."""

from __future__ import annotations

import random
import subprocess
import time
from collections.abc import Callable
from pathlib import Path

import pytest

from programs import Done, Program

ZEROS = "0" * 40
ABSENT = "1" * 40
WHO = "{} A <a@example.com> {} +0000\n"


def commit(ref: str, time: int, parent: str = "") -> str:
    """A commit of a stream: `parent` is what stands behind `from`."""
    start = f"from {parent}\n" if parent else ""
    return f"commit {ref}\n" + WHO.format("committer", time) + f"data 1\nx\n{start}\n"


def tag(name: str, ref: str) -> str:
    return f"tag {name}\nfrom {ref}\n" + WHO.format("tagger", 1) + "data 1\nx\n"


# main has two commits, the first of which is old's; side shares none; t is a tag of main
STREAM = (
    commit("refs/heads/old", 1)
    + commit("refs/heads/main", 2, "refs/heads/old")
    + commit("refs/heads/side", 3)
    + "blob\nmark :9\ndata 1\nb\ncommit refs/heads/files\n"
    + WHO.format("committer", 4)
    + "data 1\nx\nM 100644 :9 f\n\n"
    + tag("t", "refs/heads/main")
)


class Store:
    """A store file, and what setting its refs comes to."""

    def __init__(self, gx: Program, path: Path):
        self.gx, self.path = gx, path
        self.old, self.main, self.side, self.tag = (
            self.digits(name) for name in ("old", "main", "side", "refs/tags/t")
        )

    def digits(self, revision: str) -> str:
        return self.gx.prints("rev-parse", self.path, revision).decode().strip()

    def refs(self) -> dict[str, str]:
        lines = self.gx.prints("refs", self.path).decode().splitlines()
        return {name: digits for digits, name in (line.split(" ", 1) for line in lines)}

    def run(self, *words: str, lines: str = "") -> Done:
        options = [word for word in words if word.startswith("--")]
        others = [word for word in words if not word.startswith("--")]
        return self.gx("set-ref", *options, self.path, *others, stdin=lines.encode())

    def taken(self, *words: str, lines: str = "") -> dict[str, str]:
        """The change is made; the refs behind it."""
        done = self.run(*words, lines=lines)
        assert (done.status, done.out, done.err) == (0, b"", b"")
        return self.refs()

    def refused(self, told: str, *words: str, lines: str = "") -> None:
        """The change is refused with this, and FILE is the very text that it was."""
        before = self.path.read_bytes()
        done = self.run(*words, lines=lines)
        assert (done.status, done.err.decode(), done.out) == (1, f"gx: {told}\n", b"")
        assert self.path.read_bytes() == before
        assert not Path(f"{self.path}.new").exists()


@pytest.fixture
def store(gx: Program, new_store: Callable[..., Path]) -> Store:
    return Store(gx, new_store(STREAM.encode()))


def test_creation_and_move(store: Store) -> None:
    was = store.refs()
    assert store.taken("refs/heads/new", store.old) == was | {"refs/heads/new": store.old}
    assert store.taken("refs/heads/new", store.main)["refs/heads/new"] == store.main
    assert store.taken("refs/heads/new", store.main, store.main)["refs/heads/new"] == store.main


def test_old_value(store: Store) -> None:
    """OLD is held against what the ref is, and not against what it becomes."""
    was = store.refs()
    for old in (store.main, store.side, ABSENT, ZEROS):
        store.refused("ref 1: RefMoved", "refs/heads/old", store.main, old)
    now = store.taken("refs/heads/old", store.main, store.old)
    assert now == was | {"refs/heads/old": store.main}
    store.refused("ref 1: RefMoved", "refs/heads/old", store.main, store.old)
    store.taken("refs/heads/none", store.old, ZEROS)
    store.refused("ref 1: RefMoved", "refs/heads/none", store.old, ZEROS)


def test_removal(store: Store) -> None:
    was = store.refs()
    store.refused("ref 1: RefMoved", "refs/heads/side", ZEROS, store.main)
    now = store.taken("refs/heads/side", ZEROS, store.side)
    assert now == {name: held for name, held in was.items() if name != "refs/heads/side"}
    # as git does, one lets go what isn't there, unless it says what that is
    assert store.taken("refs/heads/side", ZEROS) == now
    store.refused("ref 1: RefMoved", "refs/heads/side", ZEROS, store.side)
    # its objects stay
    assert store.taken("refs/heads/back", store.side)["refs/heads/back"] == store.side


def test_forward_moves(store: Store) -> None:
    for name, new in (("main", store.old), ("main", store.side), ("side", store.main)):
        store.refused("ref 1: NotFastForward", f"refs/heads/{name}", new)
        assert store.taken("--force", f"refs/heads/{name}", new)[f"refs/heads/{name}"] == new
        store.taken("--force", "refs/heads/main", store.main)
        store.taken("--force", "refs/heads/side", store.side)


def test_force_keeps_the_other_rules(store: Store) -> None:
    store.refused("ref 1: RefMoved", "--force", "refs/heads/main", store.old, store.side)
    store.refused("ref 1: UnknownObject", "--force", "refs/heads/main", ABSENT)
    store.refused("ref 1: BadRefName", "--force", "refs/heads/a..b", store.main)


def test_tags(store: Store) -> None:
    """A ref holds a commit, or the tag whose own name makes its."""
    store.taken("refs/tags/light", store.main)
    store.taken("refs/tags/t", ZEROS, store.tag)
    assert store.taken("refs/tags/t", store.tag, ZEROS)["refs/tags/t"] == store.tag
    store.refused("ref 1: WrongKind", "refs/tags/other", store.tag)
    store.refused("ref 1: WrongKind", "refs/heads/new", store.tag)
    # the tag's commit is what moves
    store.refused("ref 1: NotFastForward", "refs/tags/t", store.old)
    assert store.taken("refs/tags/t", store.main)["refs/tags/t"] == store.main


@pytest.mark.parametrize("revision", ["files^{tree}", "files:f"])
def test_no_commit(store: Store, revision: str) -> None:
    store.refused("ref 1: WrongKind", "refs/heads/new", store.digits(revision))


@pytest.mark.parametrize("name", ["main/", "refs/heads/a..b", "refs/heads/.a", "", "@{"])
def test_bad_name(store: Store, name: str) -> None:
    store.refused("ref 1: BadRefName", name, store.main)


def test_words_stay_words(store: Store) -> None:
    """A word with a space isn't two: no ref is set that the command line doesn't name."""
    for words in (
        (f"refs/heads/new {store.main}", store.main),
        ("refs/heads/new", f"{store.main} {ZEROS}"),
        ("refs/heads/new", store.main, f"{ZEROS} "),
    ):
        store.refused("ref 1: BadLine", *words)


@pytest.mark.parametrize("digits", ["", "main", "1" * 39, "1" * 41, "g" * 40])
def test_bad_digits(store: Store, digits: str) -> None:
    store.refused("ref 1: BadLine", "refs/heads/new", digits)
    store.refused("ref 1: BadLine", "refs/heads/new", store.main, digits)


def test_lines(store: Store) -> None:
    was = store.refs()
    lines = (
        f"update refs/heads/old {store.main} {store.old}\n"
        f"create refs/heads/new {store.side}\n"
        f"delete refs/heads/side {store.side}\n"
        f"delete refs/heads/none\n"
        f"verify refs/heads/main {store.main}\n"
        f"verify refs/heads/nowhere\n"
        f"verify refs/heads/nothing {ZEROS}\n"
        f"update refs/heads/files {ZEROS}\n"
    )
    now = store.taken("--stdin", lines=lines)
    gone = ("refs/heads/side", "refs/heads/files")
    kept = {name: held for name, held in was.items() if name not in gone}
    assert now == kept | {"refs/heads/old": store.main, "refs/heads/new": store.side}


def test_cut_list(store: Store) -> None:
    """A list whose last line was cut off sets nothing, whatever is left of that line."""
    before = store.path.read_bytes()
    whole = f"create refs/heads/new {store.side}\nupdate refs/heads/old {store.main} {store.old}"
    for length in range(len(whole.splitlines()[0]) + 2, len(whole) + 1):
        done = store.run("--stdin", lines=whole[:length])
        assert (done.status, done.err) == (1, b"gx: read failed\n"), whole[:length]
    assert store.path.read_bytes() == before
    assert store.run("--stdin", lines="").status == 0


FIRST = "create refs/heads/first {main}\n"


@pytest.mark.parametrize(
    ("line", "kind"),
    [
        ("", "BadLine"),
        ("update", "BadLine"),
        ("update refs/heads/old", "BadLine"),
        ("update  refs/heads/old {main}", "BadLine"),
        ("update refs/heads/old {main} {old} ", "BadLine"),
        ("update refs/heads/old {main} {old} {old}", "BadLine"),
        ("UPDATE refs/heads/old {main}", "BadLine"),
        ("option no-deref", "BadLine"),
        ("create refs/heads/new", "BadLine"),
        ("create refs/heads/new {zeros}", "BadLine"),
        ("create refs/heads/new {main} {zeros}", "BadLine"),
        ("delete refs/heads/side {zeros}", "BadLine"),
        ("delete refs/heads/side {side} {side}", "BadLine"),
        ("verify refs/heads/side {side} {side}", "BadLine"),
        ("verify refs/heads/first {main}", "BadLine"),
        ("create refs/heads/a..b {main}", "BadRefName"),
        ("create refs/heads/main {main}", "RefMoved"),
        ("create refs/heads/main {old}", "RefMoved"),
        ("update refs/heads/old {main} {main}", "RefMoved"),
        ("delete refs/heads/side {main}", "RefMoved"),
        ("delete refs/heads/none {main}", "RefMoved"),
        ("verify refs/heads/side {main}", "RefMoved"),
        ("verify refs/heads/side", "RefMoved"),
        ("verify refs/heads/side {zeros}", "RefMoved"),
        ("create refs/heads/new {absent}", "UnknownObject"),
        ("create refs/heads/new {tag}", "WrongKind"),
        ("update refs/heads/main {old}", "NotFastForward"),
    ],
)
def test_refused_line(store: Store, line: str, kind: str) -> None:
    """A line that is refused sets nothing, nor do those before and behind it."""
    digits = {"zeros": ZEROS, "absent": ABSENT, **vars(store)}
    lines = (FIRST + line + "\ncreate refs/heads/last {main}\n").format(**digits)
    store.refused(f"ref 2: {kind}", "--stdin", lines=lines)


def test_no_lines(store: Store) -> None:
    was = store.refs()
    assert store.taken("--stdin") == was


def test_lines_or_a_ref(store: Store) -> None:
    """Standard input is read only where that is asked for."""
    before = store.path.read_bytes()
    done = store.run("--stdin", "refs/heads/new", store.main)
    assert done.status == 2 and b"cannot be used with" in done.err
    for words in ([], ["refs/heads/new"]):
        assert store.run(*words, lines=FIRST).status == 2
    assert store.path.read_bytes() == before


def test_no_store(gx: Program, tmp_path: Path) -> None:
    path = tmp_path / "none"
    done = gx("set-ref", path, "refs/heads/new", ABSENT)
    assert (done.status, done.err) == (1, b"gx: read failed\n")
    assert not path.exists() and not Path(f"{path}.new").exists()


def test_unread_lines(store: Store, tmp_path: Path) -> None:
    """Standard input that can't be read sets nothing."""
    before = store.path.read_bytes()
    folder = tmp_path / "folder"
    folder.mkdir()
    words = ["sh", "-c", 'exec "$0" set-ref --stdin "$1" < "$2"', store.gx.path, store.path, folder]
    done = subprocess.run(words, capture_output=True, timeout=60, env=store.gx.environment)
    assert (done.returncode, done.stderr) == (1, b"gx: read failed\n")
    assert store.path.read_bytes() == before


def test_setters_at_once(store: Store) -> None:
    """Of setters that saw the same, one is taken, and the others are told."""
    new = [store.digits("main")] * 6
    runs = []
    for digits in new:
        words = [store.gx.path, "set-ref", store.path, "refs/heads/old", digits, store.old]
        how = {"stdin": subprocess.DEVNULL, "stderr": subprocess.PIPE, "env": store.gx.environment}
        runs.append(subprocess.Popen(words, **how))
    told = sorted(run.communicate(timeout=60)[1] for run in runs)
    assert told == [b""] + [b"gx: ref 1: RefMoved\n"] * 5
    assert store.refs()["refs/heads/old"] == store.main


def test_setters_of_other_refs_at_once(store: Store) -> None:
    """No setter loses what another one set."""
    names = [f"refs/heads/set{number}" for number in range(8)]
    runs = [
        subprocess.Popen(
            [store.gx.path, "set-ref", store.path, name, store.main, ZEROS],
            stdin=subprocess.DEVNULL,
            env=store.gx.environment,
        )
        for name in names
    ]
    assert [run.wait(timeout=60) for run in runs] == [0] * len(names)
    refs = store.refs()
    assert all(refs[name] == store.main for name in names)


def random_line(randoms: random.Random, objects: list[str]) -> str:
    """A line that git takes or refuses by the same rules, but for its name of an object."""
    name = f"refs/heads/{randoms.choice('abcd')}"
    values = randoms.choices([*objects, ZEROS], k=2)
    verb, most = randoms.choice([("update", 2), ("create", 1), ("delete", 1), ("verify", 1)])
    least = 1 if verb in ("update", "create") else 0
    return " ".join([verb, name, *values[: randoms.randint(least, most)]])


@pytest.mark.parametrize("turn", range(3))
def test_beside_git(
    turn: int,
    seed: int,
    store: Store,
    git: Callable[..., bytes],
    environment: dict[str, str],
    tmp_path: Path,
) -> None:
    """git update-ref takes the same lists of lines, and leaves the same refs."""
    randoms = random.Random(f"{seed} {turn}")
    git("init", "-q", "--bare", tmp_path / "git")
    git("fast-import", "--quiet", cwd=tmp_path / "git", stdin=STREAM.encode())
    objects = [store.old, store.main, store.side]
    accepted = 0
    for _ in range(40):
        lines = "".join(
            random_line(randoms, objects) + "\n" for _ in range(randoms.randint(1, 3))
        )
        words = ["git", "update-ref", "--stdin"]
        how = {"input": lines.encode(), "cwd": tmp_path / "git", "env": environment}
        beside = subprocess.run(words, capture_output=True, timeout=60, **how)
        done = store.run("--force", "--stdin", lines=lines)
        assert (done.status == 0) == (beside.returncode == 0), (lines, beside.stderr, done.err)
        accepted += done.status == 0
        told = git("for-each-ref", "--format=%(objectname) %(refname)", cwd=tmp_path / "git")
        assert store.gx.prints("refs", store.path) == told, lines
    assert accepted


@pytest.mark.parametrize(
    "line", ["delete {}", "verify {}", "verify {} " + ZEROS, f"update {{}} {ZEROS}"]
)
@pytest.mark.parametrize("name", ["a..b", "refs/heads/.a", "main/"])
def test_removal_under_no_name(store: Store, name: str, line: str) -> None:
    """A name that no ref can have is refused, as git refuses it, though none would go."""
    store.refused("ref 1: BadRefName", "--stdin", lines=line.format(name) + "\n")
    store.refused("ref 1: BadRefName", "--stdin", lines=f"delete {name} {store.main}\n")


def test_line_ends(store: Store) -> None:
    lines = f"create refs/heads/one {store.main}\r\ncreate refs/heads/two {store.old}\r\n"
    now = store.taken("--stdin", lines=lines)
    assert (now["refs/heads/one"], now["refs/heads/two"]) == (store.main, store.old)


ODD = ["\0", "create refs/heads/a {}\0", "\tdelete refs/heads/a", "\r\r"]


@pytest.mark.parametrize("line", ODD)
def test_odd_bytes(store: Store, line: str) -> None:
    store.refused("ref 1: BadLine", "--stdin", lines=line.format(store.main) + "\n")


def test_names_beside_each_other(store: Store) -> None:
    """A ref may stand below another one, and what stands in quotes is a name of its own."""
    names = ("refs/heads/main/below", '"refs/heads/main"', "HEAD")
    now = store.taken("--stdin", lines="".join(f"create {name} {store.old}\n" for name in names))
    assert all(now[name] == store.old for name in names)
    assert now["refs/heads/main"] == store.main


def random_history(randoms: random.Random, count: int) -> tuple[str, list[set[int]]]:
    """A stream of commits with several roots and merges, each held by a ref, and the ancestors of
    each of them."""
    stream, ancestors = [], []
    for number in range(count):
        before = range(max(0, number - 5), number)
        parents = randoms.sample(before, min(len(before), randoms.choice([0, 1, 1, 1, 2, 2, 3])))
        ancestors.append({number}.union(*(ancestors[parent] for parent in parents)))
        links = "".join(
            f"{word} :{parent + 1}\n" for word, parent in zip(["from"] + ["merge"] * 2, parents)
        )
        start = f"commit refs/heads/c{number}\nmark :{number + 1}\n"
        stream.append(start + WHO.format("committer", number) + f"data 1\nx\n{links}\n")
    return "".join(stream), ancestors


def test_forward_in_histories(seed: int, gx: Program, new_store: Callable[..., Path]) -> None:
    """A move is taken exactly where the new commit is the old one or descends from it."""
    randoms = random.Random(f"{seed} forward")
    stream, ancestors = random_history(randoms, 40)
    path = new_store(stream.encode())
    text = path.read_bytes()
    lines = gx.prints("refs", path).decode().splitlines()
    held = {name: digits for digits, name in (line.split(" ") for line in lines)}
    taken = 0
    for _ in range(80):
        old, new = (randoms.randrange(len(ancestors)) for _ in range(2))
        words = [f"refs/heads/c{old}", held[f"refs/heads/c{new}"], held[f"refs/heads/c{old}"]]
        done = gx("set-ref", path, *words)
        is_forward = old in ancestors[new]
        told = b"" if is_forward else b"gx: ref 1: NotFastForward\n"
        assert (done.status, done.err) == (int(not is_forward), told), (seed, old, new)
        taken += is_forward
        path.write_bytes(text)
    assert 0 < taken < 80


def test_killed_setters(seed: int, store: Store) -> None:
    """Where a run is killed all of its lines are made, or none."""
    randoms = random.Random(f"{seed} killed")
    names = [f"refs/heads/x/{number}" for number in range(3000)]
    values = [store.old, store.main]
    store.taken("--stdin", lines="".join(f"create {name} {values[0]}\n" for name in names))
    made = store.path.stat().st_size
    for _ in range(15):
        lines = "".join(f"update {name} {values[1]} {values[0]}\n" for name in names)
        words = [store.gx.path, "set-ref", "--stdin", "--force", store.path]
        how = {"stdin": subprocess.PIPE, "env": store.gx.environment}
        with subprocess.Popen(words, **how) as run:
            run.stdin.write(lines.encode())
            run.stdin.close()
            time.sleep(randoms.random() * 0.05)
            run.kill()
        refs = store.refs()
        [now] = {refs[name] for name in names}
        assert now == values[1] or run.returncode != 0
        if now == values[1]:
            values.reverse()
        assert store.path.stat().st_size == made
