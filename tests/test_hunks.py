"""Git makes the new texts of the old ones by the hunks that crates/gx_hunks_examples tells of the pairs
on its standard input. The gate holds what that program tells against its file stdout."""

from __future__ import annotations

from collections.abc import Callable, Iterator
from pathlib import Path

from programs import TOP

EXAMPLES = TOP / "crates" / "gx_hunks_examples"
HEAD = b"diff --git a/text b/text\n--- a/text\n+++ b/text\n"


def cut_texts(text: bytes, count: int) -> Iterator[list[bytes]]:
    """Texts, so many at a time, behind their lengths in a line each."""
    while text:
        *lengths, text = text.split(b"\n", count)
        texts = []
        for length in map(int, lengths):
            texts.append(text[:length])
            text = text[length:]
        yield texts


def test_git_makes_new_texts_by_hunks(git: Callable[..., bytes], tmp_path: Path):
    pairs = list(cut_texts((EXAMPLES / "stdin").read_bytes(), 2))
    told = [hunks for [hunks] in cut_texts((EXAMPLES / "stdout").read_bytes(), 1)]
    assert len(pairs) == len(told)
    folder = tmp_path / "made"
    git("init", "-q", folder)
    place = folder / "text"
    for (old, new), hunks in zip(pairs, told):
        assert (old == new) == (hunks == b"")
        place.write_bytes(old)
        if hunks:
            git("apply", "--whitespace=nowarn", "-", cwd=folder, stdin=HEAD + hunks)
        assert place.read_bytes() == new
