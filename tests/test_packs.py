"""Git takes the pack that crates/gx_pack_examples writes of the objects on its standard input.
The gate holds what that program writes against its file stdout."""

from __future__ import annotations

from collections.abc import Callable
from pathlib import Path

from programs import TOP

EXAMPLES = TOP / "crates" / "gx_pack_examples"


def objects_in(text: bytes) -> list[bytes]:
    """Objects as git prints them, each with its kind and its length."""
    objects = []
    while text:
        head, _, rest = text.partition(b"\n")
        length = int(head.split()[1])
        objects.append(head + b"\n" + rest[:length])
        text = rest[length + 1 :]
    return objects


def test_git_takes_a_pack(git: Callable[..., bytes], tmp_path: Path):
    folder = tmp_path / "taken"
    git("init", "-q", folder)
    git("index-pack", "--strict", "--stdin", cwd=folder, stdin=(EXAMPLES / "stdout").read_bytes())
    form = "--batch=%(objecttype) %(objectsize)"
    taken = git("cat-file", "--batch-all-objects", form, cwd=folder)
    assert sorted(objects_in(taken)) == sorted(objects_in((EXAMPLES / "stdin").read_bytes()))
