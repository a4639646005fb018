#!/usr/bin/env python3
"""Compares the faults that docs/FAULTS.md has headings for with the enums of the sources.

    scripts/faults.py           prints how many faults each part of the page has
    scripts/faults.py --check   ends with 1 where a fault stands on one side alone: on the page, in its contents, in the sources
"""

import re
import sys
from pathlib import Path

TOP = Path(__file__).resolve().parent.parent
PAGE = TOP / "docs" / "FAULTS.md"

# the enums whose words each part explains
ENUMS = {
    "Names of blobs": ["gx_blobs/src/blob_names.rt BlobsKind"],
    "Imports": [
        "gx_model/src/faults.rt Fault",
        "gx_command/src/fault.rt CommandFault",
        "gx_stream/src/fault.rt StreamFault",
        "gx_text/src/fault.rt TextFault",
        "gx_tree/src/fault.rt TreeFault",
        "gx_store/src/fault.rt StoreFault",
    ],
    "Pushes": ["gx_push/src/fault.rt RefFault"],
    "Revisions": ["gx_rev/src/fault.rt RevFault"],
    "Stores": [
        "gx_model/src/store_faults.rt FileFault",
        "gx_repo/src/fault.rt AddFault",
        "gx_growing/src/fault.rt GrowingFault",
        "gx_objects/src/fault.rt LookFault",
    ],
    "Exports": ["gx_export/src/fault.rt ExportFault"],
    "Bundles": ["gx_kept/src/bundle_fault.rt BundleFault"],
    "Adapted streams": ["gx_adapt/src/fault.rt AdaptFault"],
    "Changes of refs": ["gx_push/src/fault.rt RefFault"],
    "Places of commands": ["gx_where/src/fault.rt WhereFault"],
    "Files and memory": [
        "gx_cli/src/fault.rt CliFault",
        "gx_batch/src/fault.rt BatchFault",
        "gx_line/src/fault.rt LineFault",
        "gx/src/fault.rt RunFault",
    ],
    "Texts of objects": ["gx_offered/src/fault.rt ItemFault", "gx_taken/src/fault.rt Refused"],
    "The library": ["gx_c/src/answer.rt Why"],
}


# the enum whose texts have a number and a word, and the part that explains these, by what stands before the number
NUMBERED = "gx_cli/src/fault.rt"
PARTS = {"keep": "Objects to keep"}
# the enum whose texts have the word of a part, and behind it one of its own
RUNS, OF_RUNS = "gx/src/fault.rt", {"bundle": "Bundles"}
# what no line of a push is refused for, since its objects come from the stream, and what is told without a part
UNTOLD = {("Pushes", word) for word in ("BadRefName", "UnknownObject", "WrongKind")} | {("Stores", "ReadFailed"), ("Bundles", "Stopped")}
# what has the word of another fault
UNTOLD |= {("Texts of objects", "Unread"), ("Texts of objects", "DanglingRef"), ("The library", "Item")}


def words_of(place):
    """The words that an enum's variants print: each its own text, or its name. Those of no text, another fault's, or one behind the
    word of a part, have none."""
    file, name = place.split()
    text = (TOP / "crates" / file).read_text()
    body = re.search(rf"^pub(?:\(crate\))? enum {name}(?:<.*?>)? \{{\n(.*?)^\}}", text, re.M | re.S).group(1)
    told = dict(re.findall(rf'\b{name}::(\w+)(?:\(\w+\)| \{{.*?\}})? => (?:f\.write_str\(|write!\(f, )?(?:"([^"]*)"|\w+\.word\(\))', text))
    variants = re.findall(r'^ {4}(?:#\[error\("(.*)"\)\]\n {4})?(\w+)\b', body, re.M)
    words = (own or told.get(variant, variant) for own, variant in variants)
    told = {word.removeprefix("gx: ") for word in words if word and "{" not in word}
    return {word for word in told if ": " not in word}


def numbered():
    """The words that stand behind a number, each with its part."""
    texts = re.findall(r'"gx: (\w+) \{number\}: (\w+)"', (TOP / "crates" / NUMBERED).read_text())
    return {(PARTS[front], word) for front, word in texts if front in PARTS}


def of_runs():
    """The words that stand behind that of a part, each with this."""
    texts = re.findall(r'"gx: (\w+): (\w+)"', (TOP / "crates" / RUNS).read_text())
    return {(OF_RUNS[front], word) for front, word in texts if front in OF_RUNS}


def standing():
    """The faults of the sources, as pairs of a part and a word."""
    told = {
        (part, word) for part, places in ENUMS.items() for place in places for word in words_of(place)
    }
    return numbered() | of_runs() | told - UNTOLD


def headings(text):
    """The parts of the page, each with its words."""
    for part in text.split("\n## ")[1:]:
        yield part.split("\n", 1)[0], re.findall(r"^### (.*)$", part, re.M)


def anchors(text):
    """Where the words of each part stand on the page, as a link names the place: the second of one name has a number."""
    found, seen = set(), {}
    for mark, heading in re.findall(r"^(##+) (.*)$", text, re.M):
        anchor = heading.lower().replace(" ", "-")
        count = seen.get(anchor, 0)
        seen[anchor] = count + 1
        if mark == "###":
            found.add((heading, f"{anchor}-{count}" if count else anchor))
    return found


def listed(text):
    """The words of the contents, with the places that they lead to."""
    contents = text.split("\n## Contents\n", 1)[1].split("\n## ", 1)[0]
    return {(word, anchor) for word, anchor in re.findall(r"\[([^]]*)\]\(#([^)]*)\)", contents) if word not in dict(headings(text))}


def main():
    text = PAGE.read_text()
    page, tree = {(part, word) for part, words in headings(text) for word in words}, standing()
    if "--check" not in sys.argv[1:]:
        for part in ENUMS:
            print(part, sum(1 for other, _ in tree if other == part))
        return
    for part, word in sorted(page - tree):
        print(f"a heading in docs/FAULTS.md, and no fault of the sources: {part}: {word}", file=sys.stderr)
    for part, word in sorted(tree - page):
        print(f"a fault of the sources, and no heading in docs/FAULTS.md: {part}: {word}", file=sys.stderr)
    for word, anchor in sorted(listed(text) ^ anchors(text)):
        print(f"in the contents of docs/FAULTS.md alone, or only below them: {word} (#{anchor})", file=sys.stderr)
    sys.exit(0 if page == tree and listed(text) == anchors(text) else 1)


if __name__ == "__main__":
    main()
