"""The calls of libginlarch, by ctypes. include/ginlarch.h tells what each does."""
import contextlib
import ctypes
import ctypes.util
import os
import threading
from typing import Iterator, List, NamedTuple, Optional, Sequence, Union

from .faults import Closed, Refused, refusal

#: The kinds of objects by their numbers.
KINDS = {1: "commit", 2: "tree", 3: "blob", 4: "tag"}

_DONE, _REFUSED, _CLOSED, _IN_USE, _OUT_OF_MEMORY = range(5)

#: So many bytes of an answer are read at once, where it comes in pieces.
PIECE = 1 << 20


class _Store(ctypes.Structure):
    _fields_ = [("is_open", ctypes.c_bool), ("held", ctypes.c_void_p)]


def _places() -> Iterator[Optional[str]]:
    yield os.path.join(os.path.dirname(os.path.abspath(__file__)), "libginlarch.so")
    yield os.environ.get("GINLARCH_LIBRARY")
    yield "libginlarch.so"
    # runs programs, so it comes last
    yield ctypes.util.find_library("ginlarch")


def _load() -> ctypes.CDLL:
    for place in _places():
        if place and (not os.path.isabs(place) or os.path.exists(place)):
            try:
                return ctypes.CDLL(place)
            except OSError:
                continue
    raise ImportError("libginlarch.so isn't there; scripts/install.sh installs it, or GINLARCH_LIBRARY names it")


_library = _load()

_store = ctypes.POINTER(_Store)
_text = [ctypes.c_char_p, ctypes.c_size_t]
_flag = [ctypes.c_bool]

_ARGUMENTS = {
    "open": _text,
    "load": _text,
    "text": [],
    "growing_text": [],
    "import": _text + _flag + _flag,
    "import_objects": _text + _flag,
    "refs": [],
    "file": _text + _text,
    "object": _text,
    "name": _text,
    "word": _text,
    "walk": [],
    "ls": _text,
    "commit": _text + [ctypes.c_uint32],
    "tag": _text + [ctypes.c_uint32],
    "archive": _text + _text,
    "export": [],
    "changes": _flag,
    "range": _flag,
    "bundle": _text,
}


def _call(name: str, result: object, arguments: List[object]) -> object:
    call = getattr(_library, "ginlarch_" + name)
    call.restype = result
    call.argtypes = [_store] + arguments
    return call


_CALLS = {name: _call(name, ctypes.c_uint32, arguments) for name, arguments in _ARGUMENTS.items()}
_close = _call("close", None, [])
_length = _call("length", ctypes.c_size_t, [])
_read = _call("read", ctypes.c_size_t, [ctypes.c_size_t, ctypes.c_void_p, ctypes.c_size_t])
_number = _call("number", ctypes.c_uint64, [])
_count = _call("count", ctypes.c_uint64, [])
_why = _call("why", ctypes.c_size_t, [ctypes.c_char_p, ctypes.c_size_t])

# bytes that are made with their room, so that an answer is copied once
_new_bytes = ctypes.pythonapi.PyBytes_FromStringAndSize
_new_bytes.restype, _new_bytes.argtypes = ctypes.py_object, [ctypes.c_char_p, ctypes.c_ssize_t]
_room_of = ctypes.pythonapi.PyBytes_AsString
_room_of.restype, _room_of.argtypes = ctypes.c_void_p, [ctypes.py_object]


class Answer(NamedTuple):
    """What a call answered."""

    data: bytes
    number: int
    count: int


class Handle:
    """A handle on a repository, which stays on the thread that made it."""

    def __init__(self) -> None:
        self._store = _Store()
        self._thread = threading.get_ident()
        self._may_have_words = False
        self.ask("open", os.urandom(16))

    def ask(self, name: str, *arguments: Union[bytes, bool, int]) -> Answer:
        """What a call answers. A refusal is raised."""
        self._call(name, *arguments)
        return Answer(self._data(), _number(self._pointer()), _count(self._pointer()))

    def ask_range(self, name: str, words: Sequence[bytes], *arguments: Union[bytes, bool]) -> Answer:
        """What a call answers of the commits that range words list.

        The next such call has its own words alone, whatever ends this one.
        """
        self._drop_words()
        self._may_have_words = True
        for word in words:
            self._call("word", word)
        answer = self.ask(name, *arguments)
        self._may_have_words = False
        return answer

    def pieces(self, name: str, *arguments: Union[bytes, bool, int]) -> Iterator[bytes]:
        """The bytes that a call answers, in pieces, so that they aren't held once more."""
        self._call(name, *arguments)
        length = _length(self._pointer())
        for offset in range(0, length, PIECE):
            yield self._part(offset, min(PIECE, length - offset))

    def close(self) -> None:
        """Frees what the handle holds."""
        self._want_own_thread()
        _close(self._pointer())

    def _call(self, name: str, *arguments: Union[bytes, bool, int]) -> None:
        self._want_own_thread()
        passed: List[object] = []
        for argument in arguments:
            passed += [argument] if isinstance(argument, int) else [argument, len(argument)]
        status = _CALLS[name](self._pointer(), *passed)
        if status == _REFUSED:
            raise refusal(self._word(), _number(self._pointer()), _count(self._pointer()))
        if status == _OUT_OF_MEMORY:
            raise MemoryError(name)
        if status != _DONE:
            raise Closed(name)

    def _drop_words(self) -> None:
        """A walk uses up the words of a call that didn't come to its end, whatever it answers."""
        if self._may_have_words:
            with contextlib.suppress(Refused, MemoryError):
                self._call("walk")
            self._may_have_words = False

    def _pointer(self) -> object:
        return ctypes.byref(self._store)

    def _data(self) -> bytes:
        return self._part(0, _length(self._pointer()))

    def _part(self, offset: int, length: int) -> bytes:
        if length == 0:
            return b""
        data = _new_bytes(None, length)
        count = _read(self._pointer(), offset, _room_of(data), length)
        if count != length:
            raise RuntimeError(f"libginlarch gave {count} bytes where {length} were told")
        return data

    def _word(self) -> str:
        room = ctypes.create_string_buffer(64)
        length = _why(self._pointer(), room, 64)
        return room.raw[:length].decode("ascii")

    def _want_own_thread(self) -> None:
        if threading.get_ident() != self._thread:
            raise RuntimeError("a repository stays on the thread that made it")

    def __del__(self) -> None:
        # one that is let go elsewhere is not freed, since it may be used on its own thread alone
        if getattr(self, "_thread", None) == threading.get_ident():
            _close(self._pointer())
