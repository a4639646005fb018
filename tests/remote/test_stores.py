"""Stores as remotes of git, where a remote of git has no answer: what no store holds, what is
missing, odd names, partial clones, HEAD, and what is checked."""

from __future__ import annotations

import fcntl
import os
import shutil
import time
from pathlib import Path

from programs import run_program
from remote_world import World


def test_unheld(world: World) -> None:
    """What no store holds is told by ref, and what stands beside it goes into the store."""
    world.started()
    world.commit({"file": "4\n"})
    early, blob = world.early(), world.git("rev-parse", "main:file")
    world.git("tag", "-m", "Of a blob", "of-blob", blob)
    world.git("tag", "-m", "Of a tag", "of-tag", "v1")
    lines = "tag signed\ngpgsig-sha256 x\n"
    other = world.written("tag", lambda text: text.replace("tag v1\n", lines))
    causes = {
        f"{early}:refs/heads/early": f"early (BadObject: commit {early})",
        "of-blob": "of-blob -> of-blob (WrongKind: a tag of a blob)",
        "of-tag": "of-tag -> of-tag (WrongKind: a tag of a tag)",
        f"{blob}:refs/tags/blob": "blob (WrongKind: a blob)",
        "v1:refs/tags/v2": "v1 -> v2 (BadRef:",
        "v1:refs/heads/tag": "v1 -> tag (BadRef:",
        f"{other}:refs/tags/signed": "signed (Unsupported: gpgsig-sha256 of the tag signed)",
    }
    push = ["push", "origin"]
    for sent, told in causes.items():
        world.refused(*push, sent, told=told)
    world.refused(*push, "--signed", "main", told="does not support --signed")
    before = world.remote.read_bytes()
    world.git(*push, "--dry-run", "main", ":side")
    assert world.remote.read_bytes() == before, "--dry-run changed the store"
    clash = "a ref is there that git can't have beside this one"
    for sent, told in {"main:main/below": clash, "of-tag": "WrongKind: a tag of a tag"}.items():
        world.refused(*push, "--dry-run", sent, told=told)
    unnamed = world.written("commit", lambda text: text.replace("\ncommitter ", "\nx ", 1))
    of_nothing = world.written("tag", lambda text: text.partition("\n")[2].replace("v1", "nothing"))
    wrong = {"early": early, "unnamed": unnamed}
    words = [f"{digits}:refs/heads/{name}" for name, digits in wrong.items()]
    words += ["of-tag", f"{of_nothing}:refs/tags/nothing"]
    done = world.run(*push, *words[:1], "main", *words[1:], ":side", "main:beside")
    assert done.err.count(b"[remote rejected]") == len(words), done.err
    wanted = {name: world.git("rev-parse", name) for name in ("light", "main", "v1")}
    assert world.short_named() == {**wanted, "beside": wanted["main"]}


def test_odd_forms(world: World) -> None:
    """What no store holds is told, and what doesn't reach it goes: an odd tree, also deep in
    others, and commits that have it from their parents."""
    world.started()
    world.commit({"file": "4\n"})
    tree = b"100664 f\0" + bytes.fromhex(world.git("rev-parse", "HEAD:file"))
    tree = world.git("hash-object", "-t", "tree", "-w", "--literally", "--stdin", stdin=tree)
    entry = f"040000 tree {tree}\tdir\n".encode()
    above = world.git("mktree", stdin=entry)
    zone = world.written("commit", lambda text: text.replace(" +0000\nc", " +00000\nc"))
    wanted = {
        "refs/heads/main": world.git("rev-parse", "main"),
        "refs/heads/zone": zone,
        "refs/heads/above": world.git("commit-tree", "-p", zone, "-m", "Above", "HEAD^{tree}"),
        "refs/heads/group": world.git("commit-tree", "-p", "HEAD", "-m", "For the group", tree),
        "refs/heads/deep": world.git("commit-tree", "-m", "Deep", above),
        "refs/tags/odd": world.written("tag", lambda text: text.replace("\n\n", "\n\n\0", 1)),
        "refs/tags/long": world.written("tag", lambda text: text.replace("v1\n", "long\n more\n")),
    }
    deep = wanted["refs/heads/deep"]
    parents = ["-p", "HEAD", "-p", deep]
    wanted["refs/heads/merged"] = world.git("commit-tree", *parents, "-m", "Merged", above)
    wanted["refs/heads/gone"] = world.git("commit-tree", "-p", deep, "-m", "Gone", "HEAD^{tree}")
    done = world.run("push", "origin", *(f"{digits}:{name}" for name, digits in wanted.items()))
    said, named = done.err.decode(), world.named()
    group = wanted["refs/heads/group"]
    assert f"group (BadObject: tree {tree} of commit {group})" in said
    for name in ("deep", "merged", "gone"):
        assert f"{name} (BadObject: tree {tree} of commit {deep})" in said, said
    assert "long (Unsupported: the form of the tag long)" in said
    assert "refs/heads/main" in named, said
    names = ("group", "deep", "merged", "gone")
    assert not {"refs/tags/long", *(f"refs/heads/{name}" for name in names)} & named.keys()
    assert [name for name, digits in named.items() if wanted.get(name, digits) != digits] == []
    world.git("clone", "-q", "--mirror", world.url, "mirror", where=".")
    assert world.git("rev-list", "--objects", "--all", where="mirror")


def test_tags_alone(world: World) -> None:
    """A tag that gx refuses, of which no stream of git's tells, keeps no commit back."""
    world.started()
    world.commit({"file": "4\n"})
    world.git("tag", "-m", "Early", "early")
    early = world.written("tag", lambda text: text.replace("<a@x> 1", "<a@x> -1"), "early")
    done = world.run("push", "--porcelain", "origin", f"{early}:refs/tags/early", "main", ":side")
    assert b"refs/tags/early\t[remote rejected] (gx: command " in done.out, done.out
    wanted = {name: world.git("rev-parse", name) for name in ("main", "v1", "light")}
    assert world.short_named() == wanted


def test_missing(world: World) -> None:
    """A store that isn't there, or is none; and what else is missing."""
    world.refused("clone", world.url, "clone", told=f"git-remote-gx: no such store: {world.remote}")
    world.refused("fetch", "origin", told="no such store")
    world.commit({"file": "1\n"})
    world.refused("push", "origin", f"{world.early()}:refs/heads/early", told="BadObject: commit")
    world.refused("push", "gx::nowhere/store.gx", "main", told="No such file")
    world.refused("fetch", "gx::file", told="gx: store: BadMagic")
    world.refused("push", "gx::file", "main", told="gx: store: BadMagic")
    told = "git-remote-gx: [Errno 20] Not a directory"
    world.refused("fetch", "gx::file/store.gx", told=told)
    world.refused("push", "gx::file/store.gx", "main", told=told)
    world.git("push", "origin", "main")
    world.refused("fetch", "origin", told="no such program; GX names gx", more={"GX": "/none/gx"})
    world.git("clone", "--depth", "1", f"file://{world.folder}/work", "shallow", where=".")
    told = "a shallow repository hasn't the history"
    world.refused("push", world.url, "main:shallow", where="shallow", told=told)
    world.git("fetch", world.url, "main", where="shallow")
    world.git("init", "-q", "--object-format=sha256", "long", where=".")
    world.commit({"file": "1\n"}, where="long")
    told = "and this repository has sha256"
    world.refused("push", world.url, "main", where="long", told=told)
    world.refused("fetch", world.url, where="long", told=told)


def test_below_a_shallow_boundary(world: World) -> None:
    """A shallow repository gets the history that it lacks below what it has."""
    first = world.commit({"file": "1\n"})
    world.commit({"file": "2\n"})
    world.git("push", "-q", "origin", "main", "main~1:refs/heads/old")
    place = f"file://{world.folder}/work"
    world.git("clone", "-q", "--depth", "1", "--branch", "main", place, "shallow", where=".")
    world.git("fetch", "-q", world.url, "old", where="shallow")
    assert world.git("rev-parse", "FETCH_HEAD", where="shallow") == first
    assert world.git("show", "FETCH_HEAD:file", where="shallow") == "1"


def test_commit_without_its_tree(world: World) -> None:
    """Where a repository has a ref's commit alone, git refuses what descends from it, and sets no
    ref. A fetch of that ref brings what is missing."""
    world.started()
    text = world.git("cat-file", "commit", "side") + "\n"
    world.git("init", "-q", "--bare", "other", where=".")
    hashed = ["hash-object", "-t", "commit", "-w", "--stdin"]
    made = world.git(*hashed, where="other", stdin=text.encode())
    assert made == world.git("rev-parse", "side")
    told = "did not send all necessary objects"
    world.refused("fetch", world.url, "main:main", where="other", told=told)
    assert world.git("for-each-ref", where="other") == ""
    world.git("fetch", "-q", world.url, "side:side", "main:main", where="other")
    assert world.git("fsck", "--full", where="other") == ""


def test_named(world: World) -> None:
    """Odd names: of the file, of refs that only a store has, and of what gx can't be told."""
    commit = world.commit({"file": "1\n"})
    world.git("push", "origin", f"{commit}:refs/heads/topic", f"{commit}:refs/heads/a")
    told = world.git("ls-remote", "--symref", "origin", "HEAD")
    assert told == f"ref: refs/heads/a\tHEAD\n{commit}\tHEAD", "HEAD without main"
    latin = os.fsdecode(b"refs/heads/l\xe4tin")
    world.git("push", "origin", f"main:{latin}", "main")
    world.git("push", "origin", f":{latin}")
    assert b"l\xe4tin" not in world.refs(), "a name that isn't UTF-8 was deleted"
    for name in ("refs/heads/main/below", "HEAD", "single"):
        world.store("import", stdin=f"reset {name}\nfrom {commit}^0\n".encode())
    done = world.run("clone", "--single-branch", "--branch", "topic", world.url, "one", where=".")
    assert (done.status, b"single: left out" in done.err) == (0, True)
    world.remote = Path(shutil.copy(world.remote, world.folder / "it's \"a\" store .gx"))
    world.store("drop", "--stdin", stdin=b"refs/heads/main/below\n")
    url = "gx::it's \"a\" store .gx"
    world.git("clone", "-q", url, "odd", where=".")
    world.commit({"file": "2\n"}, where="odd")
    world.git("push", "-q", "origin", "HEAD:refs/heads/new", where="odd")
    world.git("clone", "-q", "--bare", url, "odd.git", where=".")
    world.git("fetch", "-q", "origin", where="odd.git")


def test_let_go(world: World) -> None:
    """What was fetched before may be gone from the store: a fetch and a push go all the same."""
    world.started()
    world.git("push", "-q", "origin", f"{world.commit({'file': 'gone'})}:refs/heads/gone")
    world.git("fetch", "-q", where="clone")
    world.git("push", "-q", "origin", ":gone")
    world.store("gc")
    world.git("reset", "-q", "--hard", "main~1")
    world.git("push", "-q", "origin", f"{world.commit({'file': '5'})}:refs/heads/main")
    words = ["commit-tree", "-p", "origin/gone", "-m", "Above", "HEAD^{tree}"]
    above = world.git(*words, where="clone")
    world.git("push", "-q", "origin", f"{above}:refs/heads/above", where="clone")
    assert world.named()["refs/heads/above"] == above
    world.git("push", "-q", "origin", ":above")
    world.store("gc")
    world.git("fetch", "-q", where="clone")
    assert world.git("rev-parse", "origin/main", where="clone") == world.git("rev-parse", "main")


def test_partial(world: World) -> None:
    """A clone that git believes to lack some objects, which it would fetch when it needs them."""
    world.started()
    world.git("clone", "-q", "--filter=blob:none", world.url, "partial", where=".")
    world.commit({"file": "4\n"})
    world.git("tag", "-m", "Second", "v2")
    world.git("push", "-q", "origin", "main", "v2")
    world.git("pull", "-q", where="partial")
    pulled = world.git("rev-parse", "HEAD", "v2", where="partial")
    assert pulled == world.git("rev-parse", "HEAD", "v2")
    world.commit({"file": "5\n"}, where="partial")
    world.git("push", "-q", "origin", "HEAD:side", where="partial")
    world.git("fsck", where="partial")


def test_spelled(world: World) -> None:
    """Commits that are left out of a stream may be named by their digits, with or without `^0`."""
    world.started()
    for behind in ("", "^0"):
        world.commit({f"file{behind}": "1\n"})
        world.git("tag", "-f", "-m", "Of old", "old", "side")
        other = world.git("commit-tree", "-p", "side", "-m", "Beside", "HEAD^{tree}")
        world.git("merge", "-q", "-m", "Merge", other)
        world.git("push", "-q", "-f", "origin", "main", "old")
        changed = f"sed -E 's/^(from|merge) ([0-9a-f]{{40}})(\\^0)?$/\\1 \\2{behind}/'"
        streams = f'[ "$2" != export ] || exec "$gx" "$@" > >({changed})'
        more = world.wrapped(f'[ "$2" != bundle ] || exit 9; {streams}')
        world.git("fetch", "-q", where="clone", more=more)
        fetched = world.git("rev-parse", "origin/main", where="clone")
        assert fetched == world.git("rev-parse", "main")


def test_changed_by_gits_reader(world: World) -> None:
    """An author without a name, before whom git's fast-import puts a space, comes by objects."""
    world.started()
    nameless = world.written("commit", lambda text: text.replace("author A <", "author <"))
    world.git("push", "-q", "origin", f"{nameless}:refs/heads/nameless")
    more, commands = world.counted()
    world.git("fetch", "-q", where="clone", more=more)
    assert commands() == ["refs", "export", "bundle"]
    assert world.git("rev-parse", "origin/nameless", where="clone") == nameless


def test_deleted_in_vain(world: World) -> None:
    """A ref that isn't there is told in a warning, and the others go."""
    world.started()
    done = world.run("push", "origin", ":refs/heads/none", ":side", ":refs/tags/none")
    assert (done.status, done.err.count(b"warning: refs/")) == (0, 2), done.err
    assert "refs/heads/side" not in world.named()


def test_head(world: World) -> None:
    """A clone checks out what the source of a new store has checked out, or FILE.HEAD names."""
    world.commit({"file": "1\n"})
    world.git("branch", "-m", "trunk")
    world.git("branch", "a")
    world.git("push", "-q", "--all", "origin")
    head = world.folder / "store.gx.HEAD"
    assert head.read_text() == "ref: refs/heads/trunk\n"
    world.git("push", "-q", "origin", "a:main", "a:master")
    line = "ref: refs/heads/%s\n"
    texts = [line % "trunk", line % "a", line % "none", "", line.strip() % "a", line % "a" * 2]
    for number, (text, branch) in enumerate(zip(texts, ["trunk", "a", *["main"] * 4])):
        head.write_text(text)
        world.git("clone", "-q", world.url, f"{number}", where=".")
        assert world.git("symbolic-ref", "HEAD", where=f"{number}") == f"refs/heads/{branch}"
    head.unlink()
    os.mkfifo(head)
    assert world.git("ls-remote", "--symref", "origin", "HEAD").startswith("ref: refs/heads/main\t")


def test_head_of_what_is_pushed_as_head(world: World) -> None:
    """What is checked out may come by the name of HEAD, and under another name."""
    world.commit({"file": "1\n"})
    world.git("push", "-q", "origin", "main~0:refs/heads/a", "HEAD:refs/heads/topic")
    assert (world.folder / "store.gx.HEAD").read_text() == "ref: refs/heads/topic\n"


def test_long_name(world: World) -> None:
    """Where FILE.HEAD can't be made for a new store, this is told, and the push is done."""
    world.git("checkout", "-q", "-b", "trunk")
    world.commit({"file": "1\n"})
    world.remote = world.folder / ("a" * 248 + ".gx")
    done = world.run("push", f"gx::{world.remote}", "trunk")
    assert done.status == 0 and b"warning: [Errno 36]" in done.err, done.err
    assert world.named() == {"refs/heads/trunk": world.git("rev-parse", "trunk")}


def test_escapes(world: World) -> None:
    """What a terminal could obey isn't handed on to it."""
    world.started()
    odd = world.written("tag", lambda text: text.replace("tag v1", "tag v1\x1b[31m\x9b"))
    told = "BadRef: the tag v1\\x1b[31m\\x9b, which is refs/tags/v1"
    world.refused("push", "origin", f"{odd}:refs/tags/odd", told=told)


def test_checked(world: World) -> None:
    """Where the settings say so, what comes is checked before it is taken, as git does it."""
    world.started()
    blob = world.git("rev-parse", "main:file")
    inner = world.git("mktree", stdin=f"100644 blob {blob}\tconfig\n".encode())
    tree = world.git("mktree", stdin=f"040000 tree {inner}\t.git\n".encode())
    commit = world.git("commit-tree", "-p", "main", "-m", "Bad", tree)
    world.git("push", "-q", "origin", f"{commit}:refs/heads/bad")
    for key in ("transfer.fsckObjects", "fetch.fsckObjects"):
        world.refused("-c", f"{key}=true", "fetch", "origin", where="clone", told="hasDotgit")
        assert world.run("cat-file", "-e", commit, where="clone").status != 0
        assert list((world.folder / "clone/.git/objects").glob("tmp_objdir*")) == []
    unchecked = ["-c", "transfer.fsckObjects=true", "-c", "fetch.fsckObjects=0"]
    world.git(*unchecked, "clone", "-q", world.url, "unchecked", where=".")
    assert world.git("rev-parse", "origin/bad", where="unchecked") == commit
    checks = ["-c", "fetch.fsckObjects=true"]
    world.git(*checks, "-c", "fetch.fsck.hasDotgit=ignore", "fetch", "-q", "origin", where="clone")
    assert world.git("rev-parse", "origin/bad", where="clone") == commit
    world.git("push", "-q", "origin", ":bad")
    world.commit({"file": "5\n"})
    world.git("tag", "-m", "Good", "good")
    world.git("push", "-q", "origin", "main", "good")
    world.git(*checks, "clone", "-q", world.url, "checked", where=".")
    world.git(*checks, "fetch", "-q", where="clone")
    world.git("fsck", where="checked")
    assert world.git("rev-parse", "good", where="clone") == world.git("rev-parse", "good")


def test_url(world: World) -> None:
    """By URL a push goes where the store has a ref that git hasn't: what is pushed isn't taken for
    what both sides have. A fetch by URL has what it was asked for."""
    world.started()
    there = world.commit({"file": "5\n"}, where="clone")
    world.git("push", "-q", "origin", "HEAD:refs/heads/there", where="clone")
    here = world.commit({"file": "6\n"})
    world.git("push", "-q", world.url, "main:refs/heads/here")
    assert world.short_named()["here"] == here and world.short_named()["there"] == there
    world.git("fetch", "-q", world.url, "there:refs/heads/there")
    assert world.git("rev-parse", "there") == there


def test_nothing_can_be_told(world: World) -> None:
    """Where standard error is full, a push tells of each ref what came of it."""
    world.started()
    here = world.commit({"file": "7\n"})
    words = ["git", "push", "--porcelain", "origin", "main", ":side"]
    silent = ["bash", "-c", 'exec "$@" 2> /dev/full', "bash", *words]
    done = run_program(silent, cwd=world.folder / "work", env=world.environment)
    assert done.status == 0 and b"rejected" not in done.out, done
    assert world.short_named()["main"] == here and "side" not in world.short_named()


def test_refs_that_are_set_all_the_same(world: World) -> None:
    """Where gx fails behind the publication of refs, as by a folder that can't be synced, git is
    told that they are set, with a warning; where it fails before, that they aren't."""
    world.started()
    here = world.commit({"file": "7\n"})
    fails = '[[ "$*" != *--push=* ]] || { %secho "gx: write failed" >&2; exit 1; }'
    sent = 'if [ "$3" = --objects ]; then "$gx" "$@"; echo "gx: write failed" >&2; exit 1; fi'
    push = ["push", "--porcelain", "origin", "main", ":side"]
    before, signed = world.named(), world.signed()
    for wrong, words in ((fails % "", push), (sent, [*push[:3], f"{signed}:main", ":side"])):
        done = world.run(*words, more=world.wrapped(wrong))
        assert (done.status, done.out.count(b"(gx: write failed)")) == (1, 2), done
        assert world.named() == before
    done = world.run(*push, more=world.wrapped(fails % '"$gx" "$@"; '))
    assert done.status == 0 and b"rejected" not in done.out, done
    assert b"warning: the refs are set, but gx: write failed" in done.err, done
    assert world.short_named()["main"] == here and "side" not in world.short_named()


def test_lost_rights_are_told(world: World) -> None:
    world.started()
    world.commit({"file": "8\n"})
    lost = f"gx: {world.remote}: permissions were left out"
    more = world.wrapped(f'if [ "$2" = import ]; then echo "{lost}" >&2; fi')
    done = world.run("push", "origin", "main", more=more)
    assert done.status == 0 and f"warning: {lost}\n".encode() in done.err, done


def test_folders_of_killed_pushes(world: World) -> None:
    """The next push removes those that are an hour old, but none whose run is at work."""
    world.started()
    left, old = world.folder / "left", time.time() - 2 * 3600
    world.commit({"file": "9\n"})
    killed = world.wrapped('if [ "$2" = import ]; then kill -9 $PPID; fi')
    assert world.run("push", "origin", "main", more=killed).status != 0
    (folder,) = left.glob("git-remote-gx-*")
    for name in ("at-work", "git-remote-gx-at-work", "git-remote-gx-link"):
        (left / name).mkdir() if "link" not in name else (left / name).symlink_to("at-work")
        os.utime(left / name, (old, old))
    lock = os.open(left / "git-remote-gx-at-work", os.O_RDONLY)
    fcntl.flock(lock, fcntl.LOCK_EX)
    world.git("push", "-q", "origin", "main")
    assert folder.exists(), "it may be of a run that begins"
    os.utime(folder, (old, old))
    world.git("push", "-q", "origin", "main:more")
    os.close(lock)
    kept = {"at-work", "git-remote-gx-at-work", "git-remote-gx-link"}
    assert {path.name for path in left.iterdir()} == kept
