"""The exceptions of Ginlarch: a class for each word of docs/FAULTS.md, as `ginlarch.faults.UnknownRef`."""
from typing import Dict, Type


class Closed(Exception):
    """The repository was closed."""


class Refused(Exception):
    """A call was refused: `word` is the word of docs/FAULTS.md, after which the class is named.

    `number` is that of the command of a stream, of the item of a text of objects, or of the range word, that
    is at fault, and 0 for any other call. `checkpoints` tells how many of a stream were applied before.
    """

    def __init__(self, word: str, number: int = 0, checkpoints: int = 0) -> None:
        super().__init__(f"{word}, number {number}" if number else word)
        self.word = word
        self.number = number
        self.checkpoints = checkpoints


_REVISIONS = "BadRevision BadPath PathTooLong UnknownRef UnknownObject Ambiguous NoParent WrongKind NoSuchPath"

_STREAMS = """
ReadFailed WriteFailed UnknownCommand BadLine BadNumber TruncatedData BadMode BadIdent BadRefName UnknownMark RootNotTree
FromItself EmptyBranch Unsupported LateOption MissingDone NotFastForward NameHeld
"""

_STORES = """
Truncated BadMagic BadVersion BadRecord NameMismatch BadObject Dangling DuplicateObject BadRef RefOrder TrailingBytes
BadRows
"""

_OBJECTS = "Missing Empty"

_CLASSES: Dict[str, Type[Refused]] = {
    word: type(word, (Refused,), {"__doc__": f"The fault {word} of docs/FAULTS.md.", "__module__": __name__})
    for word in (_REVISIONS + _STREAMS + _STORES + _OBJECTS).split()
}

globals().update(_CLASSES)

__all__ = ["Closed", "Refused", *_CLASSES]


def refusal(word: str, number: int, checkpoints: int) -> Exception:
    """The exception of a word: MemoryError for want of memory."""
    if word == "OutOfMemory":
        return MemoryError(word)
    return _CLASSES.get(word, Refused)(word, number, checkpoints)
