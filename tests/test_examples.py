"""Runs the examples of the pages as they stand, in order, and compares what they print;
tests/examples.py has their form.

The folder `project` is there: a git repository with four commits on main, of README.md and other
files, and a tag v1.0. `scripts` are those of this repository. Of docs/FAULTS.md the streams and
store texts below its headings are given to the command of their part, into an empty store or one
with a commit on main, and have to be refused by the line above. Its examples of each heading are
run with this text as `stream`, and with FILE, a store with a commit on main; one below a refused
revision has to be refused so.
"""

from __future__ import annotations

from collections.abc import Iterator
from dataclasses import dataclass
from pathlib import Path

import pytest

from examples import Block, Shell, blocks_of_markdown, shell_of
from programs import SCRIPTS, TOP, Program, counted

PAGES = [
    "README.md",
    "docs/ASSURANCE.md",
    "docs/CONVERTING.md",
    "docs/REMOTE.md",
    "docs/STORE.md",
    "docs/git-remote-gx.1",
    "docs/gx-mirror.1",
    "docs/gx.1",
]
MAIN = b"""commit refs/heads/main
committer A <a@x> 1 +0000
data 2
v1
M 100644 inline README.md
data 2
v1
"""
# what is refused where a part of FAULTS has a stream or a store text below a heading
PARTS = {
    "Names of blobs": "blobs",
    "Imports": "import",
    "Stores": "refs",
    "Adapted streams": "adapt",
}


@dataclass
class Heading:
    """What stands below a heading of FAULTS: its part, and the blocks."""

    part: str
    name: str
    blocks: list[Block]

    def line(self) -> str:
        """The line that refuses."""
        return self.blocks[0].lines[0] if self.blocks else ""

    def text(self) -> bytes | None:
        """The stream or the store text that is refused."""
        texts = [block.lines for block in self.blocks[1:] if not block.lines[0].startswith("$ ")]
        return ("\n".join(texts[0]) + "\n").encode() if texts else None

    def commands(self) -> list[tuple[str, list[str]]]:
        return [step for block in self.blocks for step in block.commands()]


def headings_of(text: str) -> Iterator[Heading]:
    """The headings of a page, those below a part's heading with the part's name."""
    for part in text.split("\n## ")[1:]:
        first, *rest = part.split("\n### ")
        name = first.split("\n", 1)[0]
        yield Heading("", name, list(blocks_of_markdown(first)))
        for section in rest:
            yield Heading(name, section.split("\n", 1)[0], list(blocks_of_markdown(section)))


HEADINGS = list(headings_of((TOP / "docs" / "FAULTS.md").read_text()))
REFUSED = [heading for heading in HEADINGS if heading.part in PARTS and heading.text()]
SHOWN = [heading for heading in HEADINGS if heading.commands()]


def name_of(heading: Heading) -> str:
    return f"{heading.part} {heading.name}".strip()


@pytest.fixture(scope="session")
def reader(environment: dict[str, str]) -> dict[str, str]:
    """The environment of a page's reader, who hasn't set GX."""
    return {
        **{name: value for name, value in environment.items() if name != "GX"},
        "GINLARCH": str(TOP),
    }


@pytest.mark.parametrize("page", PAGES)
def test_page(page: str, reader: dict[str, str], tmp_path: Path) -> None:
    shell = shell_of(page, (TOP / page).read_text())
    counted["commands of documents that aren't run"] += len(shell.left_out)
    folder = tmp_path / "folder"
    folder.mkdir()
    (folder / "scripts").symlink_to(SCRIPTS)
    faults = shell.faults(folder, {**reader, "HOME": str(tmp_path)})
    assert not faults, "\n".join(faults)


@pytest.mark.parametrize("heading", REFUSED, ids=name_of)
def test_refused(heading: Heading, gx: Program, new_store) -> None:
    """The text below a heading of FAULTS is refused by the line above it."""
    counted["commands of documents"] += 1
    command, text = PARTS[heading.part], heading.text()
    if command in ("blobs", "adapt"):
        answers = [gx(command, stdin=text).err]
    elif command == "import":
        answers = [
            gx("import", new_store(before, name), stdin=text).err
            for name, before in (("empty", b""), ("main", MAIN))
        ]
    else:
        store = new_store()
        store.write_bytes(text)
        answers = [gx("refs", store).err]
    assert heading.line() in [answer.decode().strip() for answer in answers]


@pytest.mark.parametrize("heading", SHOWN, ids=name_of)
def test_examples_of_fault(
    heading: Heading, reader: dict[str, str], new_store, tmp_path: Path
) -> None:
    new_store(MAIN, "FILE")
    (tmp_path / "stream").write_bytes(heading.text() or MAIN)
    shell = Shell(f"docs/FAULTS.md, {heading.name}")
    for words, shown in heading.commands():
        shell.add(0, words, shown or ([heading.line()] if heading.part == "Revisions" else []))
    faults = shell.faults(tmp_path, reader)
    assert not faults, "\n".join(faults)
