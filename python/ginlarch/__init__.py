"""Ginlarch from Python: repositories of git, held in memory and kept in one file.

    from ginlarch import Repository
    repository = Repository.open("hello.gx")
    print(repository.refs["refs/heads/main"])
    print(repository.file("main", "doc/README").decode())

It needs the shared library libginlarch.so, which is looked for beside this file, then where the variable
GINLARCH_LIBRARY says, then where the system has libraries. To save a store it needs the program gx, which
the variable GX names, or PATH has. Nothing else is needed but Python 3.8.
"""
import contextlib
import re
from dataclasses import dataclass
from typing import BinaryIO, Dict, Iterator, List, NamedTuple, Optional, Tuple, Union

from . import calls, files
from .faults import Closed, Refused
from .files import StoreChanged, StoreLocked

__all__ = ["Closed", "Commit", "Entry", "File", "Object", "Refused", "Report", "Repository", "StoreChanged", "StoreLocked", "Tag"]

# a line, and those that continue it, which begin with a space
_CONTINUED = re.compile(rb"^[^ \n][^\n]*\n(?: [^\n]*\n)*", re.MULTILINE)

Bytes = Union[bytes, bytearray, memoryview]
Text = Union[str, Bytes]


class Object(NamedTuple):
    """An object: `commit`, `tree`, `blob` or `tag`, its name in 40 digits, and its body."""

    kind: str
    name: str
    body: bytes


class File(NamedTuple):
    """A file: its mode, as 0o100644, and its bytes. Those of a submodule are its 40 digits."""

    mode: int
    data: bytes


class Entry(NamedTuple):
    """An entry of a tree: its mode, as 0o100644, its kind and name, and its path from where the listing began."""

    mode: int
    kind: str
    name: str
    path: str


@dataclass(frozen=True)
class Commit:
    """A commit: the names of its tree and its parents, and its texts. The encoding is that of the message, where one is told.

    The author and the committer are `NAME <EMAIL> SECONDS ZONE`. The headers are the lines between that of the
    committer and the message, as they stand, each with its LF.
    """

    tree: str
    parents: Tuple[str, ...]
    author: bytes
    committer: bytes
    encoding: Optional[str]
    message: bytes
    headers: bytes = b""

    def header(self, name: Text) -> Optional[bytes]:
        """What the first header of this name has, as `gpgsig`; None where there is none.

        The lines that continue it come without the space that they begin with. The last line has no LF.
        """
        return next((told for called, told in _unfolded(self.headers) if called == _bytes(name)), None)

    def header_items(self) -> List[Tuple[bytes, bytes]]:
        """The names of all headers, in order, each with what it has. A name may come again, as `mergetag`."""
        return list(_unfolded(self.headers))


class Tag(NamedTuple):
    """A tag: the name of the commit that it tags, its own name, who made it where that is told, and its message.

    The tagger is `NAME <EMAIL> SECONDS ZONE`.
    """

    target: str
    name: str
    tagger: Optional[bytes]
    message: bytes


class Report(NamedTuple):
    """What an import did: its commands, the new objects, and the lines of `progress`."""

    commands: int
    objects: int
    progress: bytes


def _bytes(text: Text) -> bytes:
    if isinstance(text, str):
        return text.encode("utf-8", "surrogateescape")
    if isinstance(text, (bytes, bytearray, memoryview)):
        return bytes(text)
    raise TypeError(f"str or bytes are wanted, not {type(text).__name__}")


def _text(data: bytes) -> str:
    return data.decode("utf-8", "surrogateescape")


def _unfolded(headers: bytes) -> Iterator[Tuple[bytes, bytes]]:
    for lines in _CONTINUED.findall(headers):
        name, _, told = lines[:-1].replace(b"\n ", b"\n").partition(b" ")
        yield name, told


def _entry(listed: bytes) -> Entry:
    head, path = listed.split(b"\t", 1)
    mode, kind, name = head.decode("ascii").split(" ")
    return Entry(int(mode, 8), kind, name, _text(path))


class Repository:
    """A repository in memory. It is closed by `close`, at the end of a `with`, and with its last reference.

    Revisions and range words are those of gitrevisions(7), as text or bytes. A call that is refused raises
    the subclass of `Refused` that is named after the fault; docs/FAULTS.md has the list.
    """

    def __init__(self) -> None:
        """An empty repository."""
        # the call that answers what is saved: a store that is new grows, and one that was opened stays what it is
        self._text_call = "growing_text"
        self._place: Optional[str] = None
        self._held_place: Optional[str] = None
        self._stamp: Optional[files.Stamp] = None
        self._handle = calls.Handle()

    @classmethod
    def open(cls, path: files.Path) -> "Repository":
        """The repository of a store file, which has to be a regular one. OSError: it can't be read."""
        place = files.place(path)
        text, stamp = files.read(path)
        repository = cls.from_bytes(text)
        repository._place, repository._stamp = place, stamp
        return repository

    @classmethod
    @contextlib.contextmanager
    def change(cls, path: files.Path, wait: Optional[int] = None) -> Iterator["Repository"]:
        """The repository of a store file, which is written at the end of the `with`: the refs that were set
        meanwhile, with what they reach. Where the `with` is left by an exception, the file stays as it was.

        Nothing else writes the file in between. Runs of gx wait, and this waits for them as `save` does.
        OSError, StoreLocked: as of `open` and `save`.
        """
        place = files.place(path)
        with files.held(place, wait) as give, cls.open(place) as repository:
            repository._held_place = place
            before = repository.refs
            yield repository
            stream = repository._export_since(before)
            if stream:
                give([stream, b"done\n"])

    def _export_since(self, before: Dict[str, str]) -> bytes:
        """A stream of what refs reach that are others than before."""
        new = {digits for ref, digits in self.refs.items() if before.get(ref) != digits}
        old = ("^" + digits for digits in set(before.values()))
        return self.export(None, *new, *old, done=False) if new else b""

    @classmethod
    def from_bytes(cls, text: Bytes) -> "Repository":
        """The repository of a store file's bytes."""
        repository = cls()
        try:
            repository._handle.ask("load", _bytes(text))
            repository._text_call = "text"
        except BaseException:
            repository.close()
            raise
        return repository

    def close(self) -> None:
        """Frees the repository. What is asked of it afterwards raises `Closed`."""
        self._handle.close()

    def __enter__(self) -> "Repository":
        return self

    def __exit__(self, *_: object) -> None:
        self.close()

    def import_stream(self, stream: Union[Bytes, BinaryIO], done: bool = False, force: bool = False) -> Report:
        """Imports a git-fast-import(1) stream, given as bytes or as a file that is read to its end.

        With `done` it has to end with the command `done`, so that one that was cut off is refused. With
        `force` branches may lose commits. Refused, the repository is as its last checkpoint left it.
        """
        data = stream if isinstance(stream, (bytes, bytearray, memoryview)) else stream.read()
        answer = self._handle.ask("import", bytes(data), bool(done), bool(force))
        return Report(answer.number, answer.count, answer.data)

    def import_objects(self, data: Union[Bytes, BinaryIO], force: bool = False) -> int:
        """Takes refs and objects as `git for-each-ref` and `git cat-file --batch` print them, given as bytes or as a
        file that is read to its end, and tells how many objects are new. So signed commits come, too.

        With `force` refs may lose commits. Refused, the repository stays as it was.
        """
        text = data if isinstance(data, (bytes, bytearray, memoryview)) else data.read()
        return self._handle.ask("import_objects", bytes(text), bool(force)).count

    def __getitem__(self, revision: Text) -> Object:
        """The object that a revision gives, as `git cat-file` shows it."""
        name = self.name(revision)
        answer = self._handle.ask("object", _bytes(revision))
        return Object(calls.KINDS[answer.number], name, answer.data)

    def name(self, revision: Text) -> str:
        """The name of what a revision gives, as `git rev-parse` prints it."""
        return self._handle.ask("name", _bytes(revision)).data.decode("ascii")

    def commit(self, revision: Text) -> Commit:
        """The commit that a revision gives; of a tag, the commit that it names."""
        tree, parents, author, committer, encoding, message, headers = (
            self._handle.ask("commit", _bytes(revision), field).data for field in range(7)
        )
        names = tuple(parents.decode("ascii").split())
        return Commit(tree.decode("ascii"), names, author, committer, _text(encoding) or None, message, headers)

    def tag(self, revision: Text) -> Tag:
        """The tag that a revision gives; of a commit, also one that is tagged, it raises `faults.WrongKind`."""
        target, name, tagger, message = (self._handle.ask("tag", _bytes(revision), field).data for field in range(4))
        return Tag(target.decode("ascii"), _text(name), tagger or None, message)

    def ls(self, revision: Text, recursive: bool = False) -> List[Entry]:
        """The entries of a revision's tree, as `git ls-tree` lists them; or all of its files, as with `-r`."""
        return list(self._files_below(revision)) if recursive else self._entries(revision)

    def _entries(self, revision: Text) -> List[Entry]:
        return [_entry(listed) for listed in self._handle.ask("ls", _bytes(revision)).data.split(b"\0")[:-1]]

    def _files_below(self, revision: Text) -> Iterator[Entry]:
        below = [("", iter(self._entries(revision)))]
        while below:
            front, rest = below[-1]
            entry = next(rest, None)
            if entry is None:
                below.pop()
            elif entry.kind == "tree":
                below.append((front + entry.path + "/", iter(self._entries(entry.name))))
            else:
                yield entry._replace(path=front + entry.path)

    def file(self, revision: Text, path: Text) -> bytes:
        """The bytes of the file at a path in a revision's tree."""
        return self.entry(revision, path).data

    def entry(self, revision: Text, path: Text) -> File:
        """The mode and the bytes of that file."""
        answer = self._handle.ask("file", _bytes(revision), _bytes(path))
        return File(answer.number, answer.data)

    def log(self, *words: Text) -> List[str]:
        """The names of the commits that range words list, the newest made first: `log("v1..main")`."""
        return self._handle.ask_range("walk", [_bytes(word) for word in words]).data.decode("ascii").split()

    @property
    def refs(self) -> Dict[str, str]:
        """The refs: their names with the names of their objects."""
        return {_text(name): digits.decode("ascii") for digits, name in self._ref_lines()}

    def _ref_lines(self) -> Iterator[List[bytes]]:
        return (line.split(b" ", 1) for line in self._handle.ask("refs").data.split(b"\n") if line)

    def export(self, file: Optional[BinaryIO] = None, *words: Text, changes: bool = True, done: bool = True) -> bytes:
        """The repository as a stream for `git fast-import`, which is written to a file where one is given.

        With `changes` a commit has what it changed, and otherwise all of its files. Range words export the
        changes of the commits that they list. Without `done` the stream has no `done` at its end.
        """
        if words:
            stream = self._handle.ask_range("range", [_bytes(word) for word in words], bool(done)).data
        elif changes:
            stream = self._handle.ask("changes", bool(done)).data
        else:
            stream = self._handle.ask("export").data
        if file is not None:
            file.write(stream)
        return stream

    def bundle(self, *words: Text, head: Optional[Text] = None) -> bytes:
        """The repository as a bundle for `git clone` and `git fetch`: its refs, or those that range words name, with
        what they reach and what the words exclude doesn't.

        The ref that `head` names, as `main`, is HEAD, too, which `git clone` checks out.
        """
        return self._handle.ask_range("bundle", [_bytes(word) for word in words], _bytes(head or b"")).data

    def archive(self, revision: Text, prefix: Text = b"") -> bytes:
        """The tree of a revision as a tar archive, byte for byte that of `git archive`."""
        return self._handle.ask("archive", _bytes(revision), _bytes(prefix)).data

    def to_bytes(self) -> bytes:
        """The bytes of a store file of the repository, of the version that it was opened from (docs/STORE.md).

        A repository that was made in memory gives those of a growing store.
        """
        return self._handle.ask(self._text_call).data

    def save(self, path: Optional[files.Path] = None, wait: Optional[int] = None) -> None:
        """Has the program gx write the store file, or that at a path; it is replaced as a whole or stays as it was.

        The file that was opened stays a growing store, or one of version 2; a new one is a growing store.
        A run of gx that writes it is waited for, at most so many seconds where `wait` tells them: then it
        raises `StoreLocked`. Where the file that was opened is another one by now, it raises `StoreChanged`.
        A new file isn't put over one that is there.
        """
        place = self._place if path is None else files.place(path)
        if place is None:
            raise ValueError("this repository was opened from no file")
        if place == self._held_place:
            raise ValueError("this repository is saved at the end of its `with`")
        is_same = place == self._place
        text_call = self._text_call if is_same else "growing_text"
        self._stamp = files.put(place, self._handle.pieces(text_call), self._stamp if is_same else None, wait)
        self._place, self._text_call = place, text_call
