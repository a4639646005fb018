"""Commits with any headers go to a store and come back: those that are signed, that merge signed
tags, and that other systems wrote."""

from __future__ import annotations

import shutil
from pathlib import Path

import pytest
from programs import run_program
from remote_world import World

REACHED = ["rev-list", "--objects", "--no-object-names", "--all"]
needs_keys = pytest.mark.skipif(not shutil.which("ssh-keygen"), reason="there is no ssh-keygen")


@pytest.fixture(params=["plain", "growing"])
def signing(request: pytest.FixtureRequest, tmp_path: Path, gx_path: Path) -> World:
    """A folder where git uses an empty store of each kind."""
    world = World(tmp_path, "store.gx", gx_path)
    world.store("init", *(["--growing"] if request.param == "growing" else []))
    # so that a push sets no refs of the repository's own
    world.git("config", "--unset", "remote.origin.fetch")
    return world


def with_headers(world: World, headers: str, *parents: str) -> str:
    """A commit as HEAD, with header lines behind its committer, on these parents."""
    above = "".join(f"parent {world.git('rev-parse', parent)}\n" for parent in parents)

    def change(text: str) -> str:
        head, _, message = text.partition("\n\n")
        lines = [line for line in head.split("\n") if not line.startswith("parent ")]
        return f"{lines[0]}\n{above}" + "\n".join(lines[1:]) + f"\n{headers}\n{message}"

    return world.written("commit", change)


def history(world: World) -> dict[str, str]:
    """Branches of commits with each kind of header, and tags of these."""
    root = world.commit({"file": "1\n", "dir/file": "2\n"})
    tag = world.git("cat-file", "tag", world.git("mktag", stdin=tag_of(root)))
    folded = "".join(f" {line}\n" for line in tag.split("\n"))
    signature = ["BEGIN PGP SIGNATURE-----", "", "iQ", "=x", "-----END PGP SIGNATURE-----"]
    headers = {
        "signed": "gpgsig -----" + "\n ".join(signature) + "\n",
        "merged": f"mergetag{folded}",
        "two": f"mergetag{folded}mergetag{folded}gpgsig x\n y\n",
        "mercurial": "HG:extra rebase_source:1\nHG:rename a:b\n",
        "latin": "encoding ISO-8859-1\ngpgsig x\n",
        "late": "gpgsig x\nencoding ISO-8859-1\n",
        "odd": "x\n \n y\ngpgsig-sha256 z\n",
    }
    made = {}
    for name, lines in headers.items():
        made[name] = root = with_headers(world, lines, root)
        world.git("branch", name, root)
    world.git("tag", "-m", "Of a signed one", "v-signed", made["signed"])
    world.git("tag", "light-signed", made["two"])
    above = world.git("commit-tree", "-p", root, "-m", "A", "main^{tree}")
    world.git("branch", "-f", "above", above)
    return made


def tag_of(digits: str) -> bytes:
    return f"object {digits}\ntype commit\ntag v\ntagger A <a@x> 1 +0000\n\nTag\n".encode()


def equal(world: World, where: str) -> None:
    """A mirror has the refs and the objects of `work`, and git finds no fault in it."""
    rows = [world.git("for-each-ref", where=folder) for folder in ("work", where)]
    assert rows[0] == rows[1]
    held, wanted = (sorted(world.git(*REACHED, where=folder).split()) for folder in (where, "work"))
    assert held == wanted
    assert world.git("fsck", "--full", "--no-dangling", where=where) == ""


def test_headers_come_back(signing: World) -> None:
    made = history(signing)
    signing.git("push", "-q", "--mirror", "origin")
    signing.store("verify")
    signing.git("clone", "-q", "--mirror", signing.url, "mirror", where=".")
    equal(signing, "mirror")
    for name, digits in made.items():
        asked = ["cat-file", "commit", digits]
        assert signing.git(*asked, where="mirror") == signing.git(*asked), name


def test_increments_rewinds_and_deletions(signing: World) -> None:
    """The mirror has what `work` has behind each push and fetch."""
    history(signing)
    signing.git("push", "-q", "--mirror", "origin")
    signing.git("clone", "-q", "--mirror", signing.url, "mirror", where=".")
    signing.git("checkout", "-q", "signed")
    steps = [
        lambda: signing.git("branch", "more", with_headers(signing, "gpgsig x\n", "signed")),
        lambda: signing.git("branch", "-f", "more", "signed~1"),
        lambda: signing.git("branch", "-D", "above", "late"),
        lambda: signing.git("tag", "-f", "-m", "Moved", "v-signed", "two"),
        lambda: signing.commit({"dir/new": "3\n"}),
        lambda: signing.git("reset", "-q", "--hard", "latin"),
        lambda: signing.git("branch", "late", with_headers(signing, "HG:a z\n", "odd", "merged")),
    ]
    for step in steps:
        step()
        signing.git("push", "-q", "--mirror", "origin")
        signing.git("fetch", "-q", "--prune", "origin", where="mirror")
        equal(signing, "mirror")
    signing.store("verify")


def test_increments_by_streams(signing: World) -> None:
    """What a stream says isn't sent by objects, also above a signed commit; that one is."""
    history(signing)
    signing.git("push", "-q", "--mirror", "origin")
    signing.git("clone", "-q", "--mirror", signing.url, "mirror", where=".")
    signing.git("checkout", "-q", "signed")
    for is_signed in (False, True, False):
        made = signing.commit({"file": f"{signing.git('rev-parse', 'HEAD')}\n"})
        if is_signed:
            made = signing.signed()
            signing.git("reset", "-q", "--hard", made)
        signing.git("tag", "-f", "-m", "Of it", "v-more")
        push, fetch = (signing.folder / name for name in ("push", "fetch"))
        for log in (push, fetch):
            log.write_text("")
        note = 'echo "$2 $3" >> {}'
        signing.git("push", "-q", "--mirror", "origin", more=signing.wrapped(note.format(push)))
        more = signing.wrapped(note.format(fetch))
        signing.git("fetch", "-q", "origin", where="mirror", more=more)
        sent = ["import --objects"] if is_signed else []
        assert push.read_text().splitlines() == ["refs --", *sent, "import --done"]
        brought = ["export --changes", *(["bundle --pack"] if is_signed else [])]
        assert [row for row in fetch.read_text().splitlines() if row[:2] in ("ex", "bu")] == brought
        equal(signing, "mirror")


def test_branches_move_by_the_rules(signing: World) -> None:
    """A signed commit goes forward, and back by force alone; an atomic push sets all or nothing."""
    made = history(signing)
    push = ["push", "-q", "origin"]
    signing.git(*push, f"{made['signed']}:refs/heads/main")
    signing.git(*push, f"{made['two']}:refs/heads/main")
    signing.refused(*push, f"{made['signed']}:refs/heads/main", told="non-fast-forward")
    early = signing.early()
    words = ["--atomic", f"{made['odd']}:refs/heads/main", f"{early}:refs/heads/early"]
    signing.refused(*push, *words, told="atomic push failure")
    assert signing.named() == {"refs/heads/main": made["two"]}
    signing.refused(*push, "--dry-run", "v-signed:refs/tags/other", told="BadRef")
    signing.git(*push, "--atomic", f"+{made['signed']}:refs/heads/main", "latin", "v-signed")
    wanted = {"main": made["signed"], "latin": made["latin"]}
    assert signing.short_named() == {**wanted, "v-signed": signing.git("rev-parse", "v-signed")}
    signing.git(*push, "--atomic", ":latin", "late")
    assert signing.short_named().keys() == {"main", "late", "v-signed"}


def test_what_stands_beside_goes(signing: World) -> None:
    """Refs that reach what no store holds are told with it, and signed ones go."""
    made = history(signing)
    early = signing.early()
    above = signing.git("commit-tree", "-p", early, "-p", made["two"], "-m", "Above", "main^{tree}")
    signing.git("branch", "early", early)
    signing.git("branch", "over", above)
    done = signing.run("push", "--porcelain", "--all", "origin")
    told = f"[remote rejected] (BadObject: commit {early})".encode()
    assert done.status == 1 and done.out.count(told) == 2, done.out
    wanted = {name: signing.git("rev-parse", name) for name in (*made, "main", "above")}
    assert signing.short_named() == wanted


def test_clone_of_one_branch(signing: World) -> None:
    """It has the tags of what comes, and no other history."""
    made = history(signing)
    signing.git("push", "-q", "--mirror", "origin")
    words = ["clone", "-q", "--bare", "--single-branch", "-b", "signed", signing.url, "one"]
    signing.git(*words, where=".")
    assert signing.git("rev-parse", "signed", "v-signed", where="one").split() == [
        made["signed"],
        signing.git("rev-parse", "v-signed"),
    ]
    assert signing.run("cat-file", "-e", made["two"], where="one").status != 0
    signing.git("fetch", "-q", "origin", "two:two", where="one")
    assert signing.git("rev-parse", "two", where="one") == made["two"]
    signing.git("fsck", "--full", where="one")


@needs_keys
def test_signatures_are_good_in_a_clone(signing: World) -> None:
    """Of a commit, and of a tag, by git's own words."""
    key = signing.folder / "key"
    run_program(["ssh-keygen", "-q", "-t", "ed25519", "-N", "", "-f", key], env=signing.environment)
    signers = signing.folder / "signers"
    signers.write_text("a@x " + (signing.folder / "key.pub").read_text())
    settings = {"gpg.format": "ssh", "user.signingKey": key, "gpg.ssh.allowedSignersFile": signers}
    for name, value in settings.items():
        signing.git("config", "--global", name, value)
    signing.commit({"file": "1\n"})
    signing.git("commit", "-q", "-S", "--allow-empty", "-m", "Signed")
    signing.git("tag", "-s", "-m", "Signed", "v1")
    signing.git("checkout", "-q", "-b", "side", "main~1")
    signing.commit({"side": "1\n"})
    signing.git("merge", "-q", "-S", "--no-edit", "v1")
    assert "\nmergetag object " in signing.git("cat-file", "commit", "side")
    signing.git("push", "-q", "origin", "main", "side", "v1")
    signing.git("clone", "-q", signing.url, "clone", where=".")
    signing.git("verify-commit", "origin/main", "origin/side", where="clone")
    signing.git("verify-tag", "v1", where="clone")
