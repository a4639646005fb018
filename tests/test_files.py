"""Files that are missing, unreadable, in the way, no files, or on a full disk:

FILE holds its old text or the whole new one.
"""

from __future__ import annotations

import os
import re
import resource
import shutil
import subprocess
from pathlib import Path

import pytest

from programs import EMPTY_STORE, Done, counted, run_program
from store_files import (
    LARGE,
    NEW,
    OLD,
    STREAM,
    UNKNOWN,
    StoreFile,
    as_other,
    no_command_line,
    refused,
)

READERS = {"import": [], "show": ["main"]}


def test_import(store: StoreFile) -> None:
    store.made(store.take(), NEW)


# ---- init


def test_init(store: StoreFile) -> None:
    store.path.unlink()
    store.made(store.run("init", store.path), EMPTY_STORE)
    assert store.path.stat().st_size == 31


def test_init_of_a_store(store: StoreFile) -> None:
    store.kept(store.run("init", store.path), "store exists")


def test_init_of_an_empty_file(store: StoreFile) -> None:
    store.path.write_bytes(b"")
    store.kept(store.run("init", store.path), "store exists", b"")


def test_init_of_a_folder(store: StoreFile) -> None:
    refused(store.run("init", store.folder), "store exists")
    refused(store.run("init", store.folder / "nowhere" / "store"), "write failed")


# ---- files that can't be read


@pytest.mark.parametrize("command", READERS)
def test_missing_file(store: StoreFile, command: str) -> None:
    missing = store.folder / "missing"
    refused(store.run(command, missing, *READERS[command], stdin=STREAM), "read failed")
    assert store.names() == {"store"}, "and isn't made"


@pytest.mark.parametrize("command", READERS)
def test_folder_as_a_store(store: StoreFile, command: str) -> None:
    folder = store.folder / "folder"
    folder.mkdir()
    refused(store.run(command, folder, *READERS[command], stdin=STREAM), "read failed")
    folder.rmdir()


@pytest.mark.parametrize("command", READERS)
def test_unreadable_file(store: StoreFile, command: str) -> None:
    store.folder.chmod(0o777)
    store.path.chmod(0)
    done = store.run(command, store.path, *READERS[command], stdin=STREAM, **as_other())
    store.path.chmod(0o600)
    store.kept(done, "read failed")


def test_input_that_is_a_folder(store: StoreFile) -> None:
    root = os.open("/", os.O_RDONLY)
    done = store.take(root)
    os.close(root)
    store.kept(done, "command 1: ReadFailed")


@pytest.mark.parametrize("kind", ["pipe", "device", "folder"])
@pytest.mark.parametrize("command", ["refs", "import", "export", "batch", "show"])
def test_no_file(store: StoreFile, kind: str, command: str) -> None:
    """What is no file isn't waited for."""
    os.mkfifo(store.folder / "pipe")
    place = {"pipe": store.folder / "pipe", "device": Path("/dev/zero"), "folder": store.folder}[
        kind
    ]
    words = ["main"] if command == "show" else []
    refused(store.run(command, place, *words, stdin=STREAM, timeout=30), "read failed")


# ---- files that can't be written


def test_read_only_folder(store: StoreFile) -> None:
    store.path.chmod(0o444)
    store.folder.chmod(0o555)
    store.kept(store.take(**as_other()), "write failed")
    refused(store.run("init", store.folder / "other", **as_other()), "write failed")
    assert store.names() == {"store"}, "init makes nothing"


def test_folder_in_the_way(store: StoreFile) -> None:
    inside = store.next / "inside"
    store.next.mkdir()
    inside.touch()
    refused(store.take(), "write failed")
    assert store.holds(OLD)
    assert inside.is_file()
    store.path.unlink()
    refused(store.run("init", store.path), "write failed")
    assert not store.path.exists()


def test_left_over(store: StoreFile) -> None:
    """What a killed run left is replaced."""
    store.next.write_bytes(LARGE)
    store.made(store.take(), NEW)
    store.next.write_bytes(LARGE)
    store.path.unlink()
    store.made(store.run("init", store.path), EMPTY_STORE)


def test_left_over_of_another_user(store: StoreFile) -> None:
    store.next.write_bytes(LARGE)
    store.next.chmod(0o444)
    store.folder.chmod(0o777)
    store.made(store.take(**as_other()), NEW)


def test_planted_link(store: StoreFile) -> None:
    """What stands at the next text's place and is no file of its own is left alone."""
    mine = store.folder / "mine"
    mine.write_bytes(b"mine\n")
    store.next.symlink_to("mine")
    refused(store.take(), "write failed")
    assert mine.read_bytes() == b"mine\n"
    assert store.holds(OLD)


def test_planted_link_to_nothing(store: StoreFile) -> None:
    store.next.symlink_to("nothing")
    refused(store.take(), "write failed")
    assert not (store.folder / "nothing").exists()


def test_planted_pipe(store: StoreFile) -> None:
    os.mkfifo(store.next)
    refused(store.take(timeout=30), "write failed")


def test_planted_name(store: StoreFile) -> None:
    """The store under the name of the next text loses that name alone."""
    os.link(store.path, store.next)
    store.kept(store.take(UNKNOWN), "command 1: UnknownCommand")
    store.next.write_bytes(LARGE)
    store.kept(store.take(UNKNOWN), "command 1: UnknownCommand")


# ---- links


def test_links(store: StoreFile) -> None:
    links = store.folder.parent / "links"
    links.mkdir()
    one, two = links / "one", links / "two"
    one.symlink_to("../folder/store")
    two.symlink_to("one")
    store.made(store.run("import", two, stdin=STREAM), NEW)
    assert (os.readlink(two), os.readlink(one)) == ("one", "../folder/store")
    assert set(os.listdir(links)) == {"one", "two"}
    store.kept(store.run("init", two), "store exists", NEW)
    store.path.unlink()
    refused(store.run("import", two, stdin=STREAM), "read failed")
    store.made(store.run("init", two), EMPTY_STORE)
    assert os.readlink(two) == "one"
    assert set(os.listdir(links)) == {"one", "two"}


@pytest.mark.parametrize("command", ["import", "init"])
def test_link_to_itself(store: StoreFile, command: str) -> None:
    loop = store.folder / "loop"
    loop.symlink_to("loop")
    refused(store.run(command, loop, stdin=STREAM), "read failed")
    assert store.names() == {"loop", "store"}


def test_chain_of_links(store: StoreFile) -> None:
    before = "store"
    for number in range(1, 42):
        (store.folder / f"link{number}").symlink_to(before)
        before = f"link{number}"
    forty, more = store.folder / "link40", store.folder / "link41"
    done = store.run("refs", forty)
    assert (done.status, done.err) == (0, b"")
    store.made(store.run("import", forty, stdin=STREAM), NEW)
    refused(store.run("refs", more), "read failed")
    refused(store.run("import", more, stdin=STREAM), "read failed")


@pytest.mark.parametrize("command", ["refs", "import"])
def test_link_that_is_no_text(store: StoreFile, command: str) -> None:
    odd, link = os.fsencode(store.folder) + b"/odd\xff", store.folder / "link"
    os.link(store.path, odd)
    os.symlink(b"odd\xff", link)
    refused(store.run(command, link, stdin=STREAM), "read failed")


# ---- refusals


@pytest.mark.parametrize(
    "stream, fault",
    [
        (UNKNOWN, "command 1: UnknownCommand"),
        (STREAM + UNKNOWN, "command 2: UnknownCommand"),
        (STREAM + UNKNOWN + b"checkpoint\n", "command 2: UnknownCommand"),
    ],
    ids=["at once", "behind a good command", "before a checkpoint"],
)
def test_refused_import(store: StoreFile, stream: bytes, fault: str) -> None:
    store.kept(store.take(stream), fault)


def test_refused_import_behind_a_checkpoint(store: StoreFile) -> None:
    store.kept(store.take(STREAM + b"checkpoint\nfoo\n"), "command 3: UnknownCommand", NEW)


def test_refused_words(store: StoreFile) -> None:
    store.kept(store.run("show", store.path, "nope"), "revision 1: UnknownRef")
    done = store.run("drop", store.path, "refs/heads/main", "refs/heads/nope")
    store.kept(done, "revision 2: UnknownRef")


def test_file_that_is_no_store(store: StoreFile) -> None:
    store.path.write_bytes(b"gitstore 1\n")
    store.kept(store.take(), "store: BadMagic", b"gitstore 1\n")
    store.kept(store.run("gc", "--report", store.path), "store: BadMagic", b"gitstore 1\n")


def test_words_that_are_no_text(store: StoreFile) -> None:
    no_command_line(store.run("show", store.path, b"main\xff"))
    assert store.holds_alone(OLD)
    no_command_line(store.run("import", os.fsencode(store.folder) + b"/other\xff", stdin=STREAM))
    assert store.names() == {"store"}


# ---- a full disk, and the size that a file may have

# a disk of sixteen pages, which only this run sees: an import of what doesn't fit, and an init
# where no page is left
SMALL_DISK = """
mount -t tmpfs -o size=64k tmpfs "$2" || exit 77
cp "$3" "$2/store" || exit 77
"$1" import "$2/store" < "$4" > "$5/out" 2> "$5/err"
echo $? > "$5/status"
cp "$2/store" "$5/store"
ls -A "$2" > "$5/names"
head -c 1048576 /dev/zero > "$2/filler" 2> "$5/full"
"$1" init "$2/other" > "$5/init.out" 2> "$5/init.err"
echo $? > "$5/init.status"
ls -A "$2" > "$5/init.names"
"""


def left_by(folder: Path, front: str = "") -> Done:
    """What a run on the small disk came to."""
    texts = [(folder / f"{front}{name}").read_bytes() for name in ("status", "out", "err")]
    return Done(int(texts[0]), *texts[1:])


def test_full_disk(store: StoreFile, tmp_path: Path) -> None:
    disk, left, large = tmp_path / "disk", tmp_path / "left", tmp_path / "large"
    disk.mkdir()
    left.mkdir()
    large.write_bytes(LARGE)
    words = ["sh", "-c", SMALL_DISK, "sh", store.gx, disk, store.path, large, left]
    for flags in ("-m", "-rm"):
        if run_program(["unshare", flags, *words]).status == 0:
            break
    else:
        pytest.skip("no small disk can be mounted here")
    counted["programs run"] += 2
    refused(left_by(left), "write failed")
    assert (left / "store").read_bytes() == OLD
    assert (left / "names").read_text().split() == ["store"], "no part of the new text is left"
    refused(left_by(left, "init."), "write failed")
    assert set((left / "init.names").read_text().split()) == {"filler", "store"}


def test_size_of_a_file(store: StoreFile) -> None:
    done = store.run(
        *("--explain", "import", store.path),
        stdin=LARGE,
        preexec_fn=lambda: resource.setrlimit(resource.RLIMIT_FSIZE, (4096, 4096)),
    )
    refused(done, f"write failed\ngx: {store.next}: File too large (os error 27)")
    assert store.holds_alone(OLD)


# ---- output that isn't taken


@pytest.mark.parametrize(
    "words",
    [
        ["refs"],
        ["show", "main"],
        ["show", "main:test.txt"],
        ["rev-parse", "main"],
        ["log", "main"],
        ["ls", "main"],
        ["archive", "main"],
    ],
    ids=" ".join,
)
def test_full_output(store: StoreFile, words: list[str]) -> None:
    with open("/dev/full", "wb") as full:
        refused(store.run(words[0], store.path, *words[1:], stdout=full), "write failed")


def test_full_output_of_an_import(store: StoreFile) -> None:
    with open("/dev/full", "wb") as full:
        done = store.take(b"progress x\n" + STREAM, stdout=full)
    store.kept(done, "command 1: WriteFailed")


def test_closed_output_of_an_import(store: StoreFile) -> None:
    """No line of progress comes into a store."""
    words = ["sh", "-c", 'exec "$@" >&-', "sh", store.gx, "import", store.path]
    run_program(words, b"progress x\n" + STREAM)
    assert store.holds(OLD, NEW)


@pytest.mark.parametrize("words", [["export", "FILE"], ["adapt"]], ids=" ".join)
def test_closed_pipe(store: StoreFile, words: list[str], tmp_path: Path) -> None:
    """A reader that goes after a byte ends a run quietly, with status 1."""
    body = b"x" * 16000000
    stream = (
        b"commit refs/heads/wide\ncommitter A <a@x> 1 +0000\ndata 0\nM 100644 inline a\ndata %d\n"
        % len(body)
        + body
    )
    assert store.take(stream).status == 0
    (tmp_path / "stream").write_bytes(stream)
    with (tmp_path / "stream").open("rb") as given:
        child = store.start(
            *(store.path if word == "FILE" else word for word in words), stdin=given
        )
    child.stdout.read(1)
    child.stdout.close()
    assert child.stderr.read() == b""
    child.stderr.close()
    assert child.wait(timeout=60) == 1


# ---- causes


def test_causes(store: StoreFile) -> None:
    def explained(fault: str, cause: str, *words: str | Path) -> None:
        refused(store.run("--explain", *words, stdin=STREAM), f"{fault}\ngx: {cause}")

    absent = "No such file or directory (os error 2)"
    nothing, nowhere = store.folder / "nothing", store.folder / "no" / "store"
    explained("read failed", f"{nothing}: {absent}", "refs", nothing)
    explained("read failed", f"{nothing}: {absent}", "import", nothing)
    explained("write failed", f"the folder of {nowhere}: {absent}", "init", nowhere)
    explained("read failed", "/dev/zero: not a regular file", "refs", "/dev/zero")
    with open("/dev/full", "wb") as full:
        done = store.run("--explain", "refs", store.path, stdout=full)
    refused(done, "write failed\ngx: standard output: No space left on device (os error 28)")


def test_help_that_is_not_taken(store: StoreFile) -> None:
    with open("/dev/full", "wb") as full:
        refused(store.run("--help", stdout=full), "write failed")


def test_version(store: StoreFile) -> None:
    told = store.run("--version").out.decode()
    assert re.fullmatch(
        r"gx [0-9.]+ \(rattle-kit-[0-9a-z]+, commit (unknown|[0-9a-f]{40})\)\n", told
    )
    page = (Path(__file__).parents[1] / "README.md").read_text()
    kit, logic = re.findall(r"prints `(rattle-kit-\w+) logic (\w+)`", page)[0]
    assert f"({kit}, " in told
    if shutil.which("rt"):
        # a kit of another logic proves anew, and its name goes into the program and the page
        here = subprocess.run(["rt", "version"], capture_output=True, text=True).stdout
        assert here.split()[-1] == logic
