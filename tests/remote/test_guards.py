"""What a push to a store never loses: faults in the middle, what comes in between, pushes at the
same time, atomic ones, and files beside the store."""

from __future__ import annotations

import fcntl
import os
import shutil
import signal
import subprocess
import time
from pathlib import Path

import pytest
from programs import SCRIPTS, processes, run_program
from remote_world import World

LEASE = "--force-with-lease"


def test_broken(world: World) -> None:
    """Faults in the middle: gx or git-remote-gx is killed, the disk is full, a stream is cut."""
    world.started()
    world.commit({"big": "x" * 200000 + "\n"})
    world.git("branch", "other", world.commit({"more": "1\n"}))
    killed = """if [ "$2" = import ]; then
  exec 3<&0 4> >(exec "$gx" "$@")
  head -c 1000 <&3 >&4; sleep 0.3; kill -9 $!; wait $!; exit 137
fi"""
    push = ["push", "origin", "main", "other"]
    told = "main -> main (wrapped ended with status 137)"
    world.refused(*push, told=told, more=world.wrapped(killed))
    alone = 'if [ "$2" = import ]; then kill -9 $PPID; fi'
    world.refused(*push, told="", more=world.wrapped(alone))
    full = 'if [ "$2" = import ]; then ulimit -f 40; fi'
    world.refused(*push, told="main -> main (gx: write failed", more=world.wrapped(full))
    world.git(*push)
    before = world.git("for-each-ref", where="clone")
    sends = '[ "$2" = export ] || [ "$2" = bundle ]'
    cut = f'if {sends}; then "$gx" "$@" | head -c %s; exit %d; fi'
    sizes = ("100000", "-1", "-5", "-100", "20")
    for number, (size, status) in enumerate((size, status) for size in sizes for status in (9, 0)):
        copy = f"clone{number}"
        shutil.copytree(world.folder / "clone", world.folder / copy)
        told = "wrapped ended with status 9" if status else ""
        more = world.wrapped(cut % (size, status))
        world.refused("fetch", "origin", where=copy, told=f"git-remote-gx: {told}", more=more)
        assert world.git("for-each-ref", where=copy) == before, "refs behind a fetch that was cut"
        world.git("fetch", "-q", "origin", where=copy)
        world.git("fsck", where=copy)


def test_at_once(world: World) -> None:
    """Pushes at the same time: to other branches each comes in, and to the same branch one."""
    world.started()
    for number in range(4):
        world.git("worktree", "add", "-q", "-b", f"topic{number}", f"../tree{number}")
        world.commit({f"file{number}": "1\n"}, where=f"tree{number}")
    for refs, wanted in (("HEAD", 4), ("HEAD:main", 1)):
        ended = world.pushed_at_once([(f"tree{number}", refs) for number in range(4)])
        assert ended.count(0) == wanted, refs
    assert world.refs().count(b"refs/heads/topic") == 4


def test_first_at_once(world: World) -> None:
    """Pushes that all make the store: each comes in, or is told that it did not."""
    world.commit({"file": "1\n"})
    early = world.early()
    refs = (("main", "topic"), (early, "early"))
    sent = [f"{name}:refs/heads/{ref}{number}" for name, ref in refs for number in range(4)]
    ended = world.pushed_at_once([("work", refs) for refs in sent])
    came = {refs.partition(":")[2] for refs, status in zip(sent, ended) if status == 0}
    assert world.named().keys() == came and all("topic" in ref for ref in came)
    assert {path.name for path in world.folder.glob("store.gx?*")} <= {"store.gx.HEAD"}


def test_between(world: World) -> None:
    """What comes in between a push's look at the refs and its own import is never lost."""
    world.started()
    theirs = world.commit({"theirs": "1\n"}, where="clone")
    world.git("commit", "-q", "--amend", "-m", "Amended")
    push = f"git -C {world.folder}/clone push -q origin main"
    slow = world.before_import(f"GX=$gx {push}")
    done = world.run("push", "--porcelain", "origin", ":side", "+main", more=slow)
    assert done.status == 1 and b"fetch first" in done.out, done.out
    named = world.named()
    assert (named["refs/heads/main"], "refs/heads/side" in named) == (theirs, False)
    assert list(world.folder.glob("store.gx?*")) == [], "what stands beside the store"


@pytest.mark.parametrize("words", [["main", "+side"], [LEASE, "main", "+side"], ["+main", "side"]])
def test_import_between(world: World, words: list[str]) -> None:
    """A forced ref or a lease takes no guard off another: a commit that an import has brought
    meanwhile is still there, and other refs of the push are set."""
    world.started()
    old = world.git("rev-parse", "main")
    stream = world.folder / "stream"
    lines = ["commit refs/heads/main", "committer A <a@x> 1 +0000", "data 2", "x", f"from {old}^0"]
    stream.write_text("\n".join(lines) + "\n")
    apart = world.git("commit-tree", "-m", "Apart", "-p", "main~1", "main^{tree}")
    world.git("branch", "-f", "side", apart)
    amend = ["--amend"] if LEASE in words else []
    world.git("commit", "-q", "--allow-empty", "-m", "Ours", *amend)
    slow = world.before_import(f'"$gx" import {world.remote} < {stream}')
    done = world.run("push", "--porcelain", "origin", *words, more=slow)
    told = b"stale info" if LEASE in words else b"fetch first"
    assert done.status == 1 and told in done.out, done.out
    named = world.named()
    assert named["refs/heads/main"] not in (old, world.git("rev-parse", "main"))
    assert named["refs/heads/side"] == world.git("rev-parse", "side")


@pytest.mark.parametrize("change", [":main", "+main~1:main"])
@pytest.mark.parametrize("by", ["export", "bundle"])
def test_fetch_between(world: World, by: str, change: str) -> None:
    """A ref that goes or is forced between what git was told and its fetch. By a stream git has
    what it was told. By objects, as of a signed commit, it sets no ref. The next fetch has what the
    store has."""
    world.started()
    plain = world.commit({"file": "4\n"})
    told = plain if by == "export" else world.signed()
    world.git("push", "-q", "origin", f"{told}:refs/heads/main")
    before = world.git("for-each-ref", where="clone")
    begun = world.folder / "begun"
    theirs = f"GX=$gx git -C {world.folder}/work push -q origin {change}"
    script = f'if [ "$2" = {by} ] && mkdir {begun} 2> /dev/null; then {theirs}; fi'
    done = world.run("fetch", "origin", where="clone", more=world.wrapped(script))
    assert begun.exists() and (done.status == 0) == (by == "export"), done.err
    after = world.git("for-each-ref", where="clone")
    row = f"{told} commit\trefs/remotes/origin/main"
    assert row in after if by == "export" else after == before
    world.git("fetch", "-q", "--prune", "origin", where="clone")
    asked = ["for-each-ref", "--format=%(objectname)", "refs/remotes/origin/main"]
    held = world.git(*asked, where="clone")
    assert held == world.named().get("refs/heads/main", "")
    world.git("rev-list", "--objects", "--branches", "--remotes", where="clone")


def test_let_go_between(world: World) -> None:
    """What the store lets go meanwhile is sent again."""
    world.started()
    world.git("push", "-q", "origin", f"{world.commit({'file': 'gone'})}:refs/heads/gone")
    above = world.commit({"file": "above"})
    gone = f'"$gx" drop {world.remote} refs/heads/gone && "$gx" gc {world.remote}'
    world.git("push", "-q", "origin", "main:above", more=world.before_import(gone))
    assert world.named()["refs/heads/above"] == above


def test_collected_between(world: World) -> None:
    """What a gc takes away before its refs are set is sent again, where objects come first."""
    world.started()
    world.commit({"file": "above"})
    above = world.signed()
    begun = world.folder / "begun"
    gc = f'"$gx" gc {world.remote}'
    script = f'if [[ "$*" == *--push=* ]] && mkdir {begun} 2> /dev/null; then {gc}; fi'
    sent = f"{above}:refs/heads/above"
    done = world.run("push", "origin", sent, ":side", more=world.wrapped(script))
    assert done.status == 0 and begun.exists(), done.err
    assert world.short_named()["above"] == above and "side" not in world.short_named()


@pytest.mark.parametrize(
    "text, held, told",
    [
        ("Tagged", "above", b"UnknownObject"),
        ("Changed", "v2", b"NameMismatch: commit "),
        ("body", "v2", b"NameMismatch: blob "),
    ],
)
def test_changed_on_the_way(world: World, text: str, held: str, told: bytes) -> None:
    """A push never leaves other objects than git has, also where its bytes are changed: the text of
    a tag, of a commit or of a file. What isn't concerned goes."""
    world.started()
    world.git("tag", "-m", "Tagged", "v2")
    world.git("checkout", "-q", "-b", "above")
    world.commit({"file": "body\n"})
    world.git("commit", "-q", "--amend", "-m", "Changed")
    before = world.short_named()
    changed = f"sed 's/^{text}$/{text.swapcase()}/'"
    more = world.wrapped(f'[ "$2" != import ] || exec "$gx" "$@" < <({changed})')
    done = world.run("push", "origin", "above", "v2", more=more)
    assert done.status == 1 and told in done.err, done.err
    assert world.short_named() == {**before, held: world.git("rev-parse", held)}


def test_replaced(world: World) -> None:
    """gx itself looks whether a ref loses commits, where git takes a commit for another."""
    world.started()
    old = world.git("rev-parse", "main")
    other = world.git("commit-tree", "-p", "main~1", "-m", "Beside", "main^{tree}")
    world.git("replace", "--graft", other, "main")
    done = world.run("push", "--porcelain", "origin", f"{other}:refs/heads/main", "main:new")
    assert done.status == 1 and b"(non-fast-forward)" in done.out, done.out
    named = world.named()
    assert (named["refs/heads/main"], named["refs/heads/new"]) == (old, old)
    world.git("push", "-q", "origin", f"+{other}:main")
    assert world.named()["refs/heads/main"] == other


def test_atomic(world: World) -> None:
    """With --atomic all refs are set or none is, whatever refuses one of them, by one run of gx."""
    world.started()
    world.git("branch", "other", world.commit({"file": "4\n"}))
    atomic = ["push", "--atomic", "origin", ":side", "main"]
    told = "main -> main (atomic push failure)"
    world.refused(*atomic, f"{world.early()}:refs/heads/wrong", told=told)
    blob = world.git("rev-parse", "main:file")
    world.refused(*atomic, f"{blob}:refs/tags/blob", told=told)
    world.refused(*atomic, "main:refs/heads/main/below", told=told)
    theirs = f"GX=$gx git -C {world.folder}/clone push -q -f origin main~1:light"
    world.git("tag", "-f", "light", "main")
    done = world.run(*atomic, "+light", more=world.before_import(theirs))
    assert told in done.err.decode(), done.err
    assert "refs/heads/side" in world.named()
    assert world.named()["refs/heads/main"] != world.git("rev-parse", "main")
    more, commands = world.counted()
    world.git(*atomic, "other", ":refs/heads/none", more=more)
    assert commands() == ["refs", "import"]
    wanted = {name: world.git("rev-parse", name) for name in ("main", "other")}
    assert {name: world.named()[f"refs/heads/{name}"] for name in wanted} == wanted
    assert "refs/heads/side" not in world.named()


def test_beside_the_store(world: World) -> None:
    """A push touches nothing beside FILE but FILE.new: what is called FILE.push stays as it is."""
    for number in range(3):
        world.commit({"file": f"{number}\n"})
    beside = world.folder / "store.gx.push"
    named = world.folder / "named"
    makes = [beside.write_bytes, lambda _: beside.symlink_to(named), lambda _: os.mkfifo(beside)]
    for number, make in enumerate(makes):
        make(b"data")
        kept = beside.lstat()
        world.git("push", "-q", "origin", f"HEAD~{number}:refs/heads/{number}", ":refs/heads/none")
        assert beside.lstat() == kept and not named.exists()
        beside.unlink()
    assert sorted(path.name for path in world.folder.glob("store.gx*")) == ["store.gx"]


def test_turn_of_a_killed_helper(world: World) -> None:
    """Where git-remote-gx waits for its turn, as gx-mirror asks it to, and is killed, no gx goes on
    to take the lock."""
    world.started()
    mark = f"--push={world.folder}".encode()

    def is_of_turn(process: int) -> bool:
        return mark in Path(f"/proc/{process}/cmdline").read_bytes()

    with open(f"{world.remote}.new", "wb") as held:
        os.chmod(held.fileno(), 0o600)
        fcntl.flock(held, fcntl.LOCK_EX)
        words = [SCRIPTS / "git-remote-gx", "origin", world.remote]
        how = {"cwd": world.folder / "work", "env": {**world.environment, "GIT_DIR": ".git"}}
        pipe = subprocess.PIPE
        with subprocess.Popen(words, stdin=pipe, stdout=pipe, **how) as helper:
            helper.stdin.write(b"option gx-turn true\nlist for-push\n")
            helper.stdin.flush()
            while not processes(is_of_turn):
                time.sleep(0.1)
            helper.kill()
    stream = b"commit refs/heads/new\ncommitter A <a@x> 1 +0000\ndata 0\n\n"
    world.store("import", "--wait=20", stdin=stream)
    assert not processes(is_of_turn)


def test_turn_of_another_system(world: World) -> None:
    """A run has its turn also where a system can't end it with its parent, as only Linux can."""
    world.started()
    other = "import sys\nsys.platform, sys.modules['ctypes'] = 'other', None\n"
    (world.folder / "sitecustomize.py").write_text(other)
    words = [SCRIPTS / "git-remote-gx", "origin", world.remote]
    elsewhere = {"GIT_DIR": ".git", "PYTHONPATH": str(world.folder)}
    how = {"cwd": world.folder / "work", "env": {**world.environment, **elsewhere}}
    told = world.named()
    asked = b"option gx-turn true\nlist for-push\npush %s:refs/heads/new\n\n"
    asked %= told["refs/heads/main"].encode()
    done = run_program(words, asked, **how)
    assert done.status == 0 and done.out.endswith(b"\nok refs/heads/new\n\n"), done
    assert world.named() == {**told, "refs/heads/new": told["refs/heads/main"]}


@pytest.mark.parametrize("names", ["TERM", "HUP", "INT", "HUP TERM", "INT TERM"])
def test_ended_pushes_leave_nothing(world: World, names: str) -> None:
    """The system ends a push, or the terminal does, and git hands that on."""
    world.started()
    world.commit({"file": "9\n"})
    sent = "; ".join(f"kill -{name} $PPID" for name in names.split())
    ended = world.wrapped(f'if [ "$2" = import ]; then {sent}; sleep 1; fi')
    assert world.run("push", "origin", "main", more=ended).status != 0
    assert not list((world.folder / "left").iterdir())


def test_pushes_below_nohup_go_on(world: World) -> None:
    world.started()
    here = world.commit({"file": "9\n"})
    closed = world.wrapped('if [ "$2" = import ]; then kill -HUP $PPID; fi')
    before = signal.signal(signal.SIGHUP, signal.SIG_IGN)
    try:
        assert world.run("push", "origin", "main", more=closed).status == 0
    finally:
        signal.signal(signal.SIGHUP, before)
    assert world.short_named()["main"] == here
    assert not list((world.folder / "left").iterdir())
