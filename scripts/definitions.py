#!/usr/bin/env python3
"""Lists the definitions of the crates, and looks after the index of those to read first.

    scripts/definitions.py           prints every definition, by crate and file, as Markdown
    scripts/definitions.py --check   ends with 1 where docs/DEFINITIONS.md names one that isn't there

A row has the name, its type or what it stands for (`= List Path`), or the fields of a `record` or the
constructors of a `data`, and the comment above it in the file. Rows under `Given` take what is named
there as their first arguments. Where a file names no source, its definitions are this project's own.
"""

import re
import sys
from pathlib import Path

TOP = Path(__file__).resolve().parent.parent
PAGE = TOP / "docs" / "DEFINITIONS.md"
ENTRY = re.compile(r"^\d+\. `([^`]+)`, `([^`]+)`: ", re.M)

HEAD = re.compile(r"^ *(?:abbrev |unfoldable )?pub (?P<what>record |data )?(?P<name>[^\s:]+)(?P<rest>.*)$")
BLOCK = re.compile(r"^ *(?:abbrev |unfoldable )?mutual$")
SECTION = re.compile(r"^ *module _ (?P<given>.*) where$")
SOURCE = re.compile(r"^(?P<about>.*?)\s*Source: (?P<source>.*)$", re.S)
MEMBER = re.compile(r"^ *(?:pub )?(?P<name>[^\s:]+) : ")


def indent_of(line):
    return len(line) - len(line.lstrip(" "))


def comment_above(lines, at):
    """The comment that ends right above a line, as one text."""
    text = []
    while at > 0 and lines[at - 1].strip().startswith("infix"):
        at -= 1
    while at > 0 and lines[at - 1].strip().startswith("-- ") and not lines[at - 1].strip().startswith("-- ----"):
        at -= 1
        text.insert(0, lines[at].strip()[3:])
    return " ".join(text)


def body_below(lines, at):
    """The lines that belong to the definition whose first line this is: those further in."""
    below = []
    for line in lines[at + 1 :]:
        if line.strip() and indent_of(line) <= indent_of(lines[at]):
            break
        if not line.strip():
            break
        below.append(line)
    return below


def equation_below(lines, at, name):
    """What stands behind the `=` of a definition without arguments, where it is one line."""
    for place in range(at + 1, len(lines)):
        if lines[place].strip() == f"{name} =":
            found = [line.strip() for line in body_below(lines, place)]
            return found[0] if len(found) == 1 else ""
        if lines[place].strip().startswith(f"{name} = "):
            return "" if body_below(lines, place) else lines[place].strip()[len(name) + 3 :]
        if not lines[place].strip():
            return ""
    return ""


def members_of(lines, at):
    """The constructors of a data type, or the fields of a record, in order."""
    depth = indent_of(lines[at]) + 2
    found = (MEMBER.match(line) for line in body_below(lines, at) if indent_of(line) == depth)
    return [member.group("name") for member in found if member]


def signature_of(lines, at, head):
    """The signature of a definition, and what it stands for where that is short."""
    rest = head.group("rest").strip()
    if not head.group("what"):
        rest = " ".join([rest] + [line.strip() for line in body_below(lines, at)])
    rest = re.sub(r"\s+", " ", re.sub(r"( where)?$", "", rest))
    rest = rest[2:] if rest.startswith(": ") else rest
    if head.group("what"):
        rest = re.sub(r"(^| :) ?Type 0$", "", rest)
        parts = [code(part) for part in [rest] if part]
        names = " ".join(members_of(lines, at))
        return " ".join([head.group("what").strip()] + parts + (["of " + code(names)] if names else []))
    meaning = equation_below(lines, at, head.group("name")) if rest == "Type 0" else ""
    return code(f"= {meaning}" if meaning and len(meaning) <= 160 else rest)


def code(text):
    return "`" + text.replace("|", "\\|") + "`"


def plain(text):
    """A comment as Markdown: what stands between backquotes stays as it is, but a bar would end a cell."""
    parts = text.replace("|", "\\|").split("`")
    return "`".join(part if number % 2 else part.replace("<", "\\<") for number, part in enumerate(parts))


def rows_of(lines):
    """The public definitions of a file, in order: what their section is given, name, signature, comment."""
    sections, rows, hidden = [], [], None
    for at, line in enumerate(lines):
        if not line.strip() or line.strip().startswith("-- "):
            continue
        sections = [given for given in sections if given[0] < indent_of(line)]
        if hidden is not None and indent_of(line) > hidden:
            continue
        hidden = None
        section, head = SECTION.match(line), HEAD.match(line)
        if section:
            sections.append((indent_of(line), section.group("given")))
        elif head and not head.group("name") == "mod":
            given = " ".join(text for _, text in sections)
            rows.append((given, head.group("name"), signature_of(lines, at, head), comment_above(lines, at)))
            hidden = indent_of(line)
        elif not BLOCK.match(line):
            hidden = indent_of(line)
    return rows


def about_file(lines):
    """The comment at the head of a file, and the source that it names."""
    head = []
    for line in lines:
        if not line.startswith("-- "):
            break
        head.append(line[3:])
    text = " ".join(head)
    source = SOURCE.match(text)
    return (source.group("about"), source.group("source")) if source else (text, "")


def files_of(crate):
    """The files of a crate's definitions, in the order of its Lib.antt."""
    specs = TOP / "crates" / crate / "specs"
    listed = re.findall(r"^pub mod (\S+)$", (specs / "Lib.antt").read_text(), re.M)
    place = {name: number for number, name in enumerate(listed)}
    files = [file for file in specs.rglob("*.antt") if file.name != "Lib.antt" and "declared" not in file.parts]

    def rank(file):
        return place.get(file.relative_to(specs).parts[0].removesuffix(".antt"), len(place)), str(file)

    return sorted(files, key=rank)


def table(rows):
    """One table for each run of rows whose section is given the same."""
    text, given = [], None
    for row in rows:
        if row[0] != given:
            given = row[0]
            text += ["", f"Given {code(given)}:"] if given else []
            text += ["", "| Name | Signature | What it is |", "|---|---|---|"]
        text.append(f"| `{row[1]}` | {row[2]} | {plain(row[3])} |")
    return text


def page_of_file(file):
    lines = file.read_text().splitlines()
    about, source = about_file(lines)
    text = ["", f"### {file.stem}", "", f"`{file.relative_to(TOP)}`. {plain(about)}"]
    text += [f"Source: {plain(source)}"] if source else []
    rows = [] if about.startswith("Worked ") else rows_of(lines)
    return text + table(rows)


def made():
    text = []
    for line in (TOP / "crates.txt").read_text().splitlines():
        crate = line.split(":")[0].split()[0]
        if (TOP / "crates" / crate / "specs" / "Lib.antt").exists():
            text += ["", f"## {crate}"]
            text += [line for file in files_of(crate) for line in page_of_file(file)]
    return "\n".join(text) + "\n"


def missing():
    """The entries of the index that name no definition of their file."""
    for name, file in ENTRY.findall(PAGE.read_text()):
        path = TOP / "crates" / file
        names = [row[1] for row in rows_of(path.read_text().splitlines())] if path.exists() else []
        if name not in names:
            yield f"{name}, {file}"


def main():
    if "--check" not in sys.argv[1:]:
        print(made(), end="")
        return
    found = list(missing())
    for entry in found:
        print(f"in docs/DEFINITIONS.md, and not in the sources: {entry}", file=sys.stderr)
    if not ENTRY.search(PAGE.read_text()):
        sys.exit("docs/DEFINITIONS.md has no entry")
    sys.exit(1 if found else 0)


if __name__ == "__main__":
    main()
