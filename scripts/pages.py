#!/usr/bin/env python3
"""Looks at the form of the pages: README.md, docs/*.md and the manuals docs/*.1.

    scripts/pages.py           prints of each page its lines, longest line, longest sentence, and the
                               runs of ten words that another page has, too
    scripts/pages.py --twice   prints these runs
    scripts/pages.py --long    prints the sentences of more than 30 words
    scripts/pages.py --check   ends with 1 where a page is too long, a line or a sentence is, or a
                               link or the name of a file leads nowhere
"""

import re
import sys
from collections import defaultdict
from pathlib import Path

TOP = Path(__file__).resolve().parent.parent
LINES = {"README.md": 150, "docs/BENCHMARKS.md": 156}
COLUMNS, WORDS, RUN = 100, 30, 10
KIT = {"START-HERE.md", "CONTRACTS.md"}


def pages():
    return [TOP / "README.md", *sorted((TOP / "docs").glob("*.md")), *sorted((TOP / "docs").glob("*.1"))]


def name_of(page):
    return str(page.relative_to(TOP))


def without_code(text):
    """Markdown without its blocks of code, each of which is left as an empty line."""
    kept, fenced, before = [], False, ""
    for line in text.splitlines():
        if line.startswith("```"):
            fenced, line = not fenced, ""
        elif fenced or (line.startswith("    ") and not before.strip()):
            line = ""
        elif line.strip():
            before = line
        if not line.strip():
            before = ""
        kept.append(line)
    return "\n".join(kept)


def plain(text):
    """Text as it is read: a piece of code is one word, a link its words, but for one of the page."""
    text = re.sub(r"`[^`]*`", "CODE", text)
    text = re.sub(r"\[[^]]*\]\(#[^)]*\)", "", text)
    text = re.sub(r"!?\[([^]]*)\]\([^)]*\)", r"\1", text)
    return re.sub(r"[*_]{1,2}(?=\S)|(?<=\S)[*_]{1,2}", "", text)


def blocks_of_markdown(text):
    """What a reader reads at one go: paragraphs, entries of lists, cells of tables."""
    text = re.sub(r"<!--.*?-->", "", without_code(text), flags=re.S)
    for part in re.split(r"\n\s*\n|\n(?=#|\s*- |\s*\d+\. |\|)", text):
        part = plain(part)
        if part.lstrip().startswith("|"):
            yield from (cell.strip() for cell in part.strip().strip("|").split("|"))
        else:
            yield re.sub(r"\s+", " ", re.sub(r"^\s*(#+|-|\d+\.) ", "", part.strip()))


def words_of_macro(line):
    """The words of a line of the manual, without its macro."""
    parts = re.findall(r'"([^"]*)"|(\S+)', re.sub(r"^\.[A-Z]+ ?", "", line))
    joined = "".join if re.match(r"\.(BR|RB|BI|IB|IR|RI) ", line) else " ".join
    return joined(one or other for one, other in parts)


def blocks_of_manual(text):
    """The paragraphs of the manual. The line behind .TP stands alone."""
    block, tagged, shown = [], False, False
    for line in text.splitlines():
        shown = line.startswith(".nf") or (shown and not line.startswith(".fi"))
        if shown or line.startswith((".fi", ".in", ".RS", ".RE", ".TH")):
            continue
        if re.match(r"\.(SH|SS|TP|PP|IP|br)\b", line) or tagged:
            yield " ".join(block)
            block = []
        tagged = line.startswith(".TP")
        if not re.match(r"\.(SH|SS|TP|PP|IP|br)\b", line):
            block.append(words_of_macro(line) if line.startswith(".") else line)
            if tagged:
                yield block.pop()
    yield " ".join(block)


def blocks_of(page):
    if page.suffix == ".md":
        return blocks_of_markdown(page.read_text())
    text = re.sub(r"\\f[BIR]|\\&", "", page.read_text()).replace("\\-", "-")
    return blocks_of_manual(text)


def sentences_of(page):
    for block in blocks_of(page):
        yield from re.split(r"(?<=[.?!])[)\"]* +", block)


def count_words(sentence):
    return sum(1 for word in sentence.split() if re.search(r"\w", word))


def runs_of(page):
    """All runs of ten words that stand in one sentence of a page."""
    for sentence in sentences_of(page):
        words = re.findall(r"[\w'^-]+", sentence.lower())
        for at in range(len(words) - RUN + 1):
            yield " ".join(words[at : at + RUN])


def said_twice():
    """The runs of words that more than one page has, with the pages."""
    found = defaultdict(set)
    for page in pages():
        for run in runs_of(page):
            found[run].add(name_of(page))
    return {run: names for run, names in found.items() if len(names) > 1}


def anchors_of(page):
    """The places of a page that a link can name."""
    found, seen = set(), defaultdict(int)
    for heading in re.findall(r"^#+ (.*)$", without_code(page.read_text()), re.M):
        anchor = re.sub(r"[^\w -]", "", heading.lower()).replace(" ", "-")
        found.add(f"{anchor}-{seen[anchor]}" if seen[anchor] else anchor)
        seen[anchor] += 1
    return found


def dead_links(page):
    for link in re.findall(r"\]\(([^)]+)\)", without_code(page.read_text())):
        file, _, anchor = link.partition("#")
        target = page.parent / file if file else page
        if link.startswith(("http:", "https:")):
            continue
        if not target.exists() or (anchor and anchor not in anchors_of(target)):
            yield link


def missing_files(page):
    """The files that a page names in code, and that aren't there. The kit's guides are elsewhere."""
    for name in re.findall(r"`([\w./-]+\.(?:rt|antt|sh|py|md|dot|gp|tsv|svg))`", page.read_text()):
        places = (TOP / name, TOP / "docs" / name, TOP / "crates" / name)
        deep = [*TOP.glob(f"crates/*/{name}"), *TOP.glob(f"crates/*/*/**/{name}"), *TOP.glob(f"bench/{name}")]
        if name not in KIT and not deep and not any(place.exists() for place in places):
            yield name


def faults_of(page):
    lines, name = page.read_text().splitlines(), name_of(page)
    if len(lines) > LINES.get(name, len(lines)):
        yield f"{name} has {len(lines)} lines, and may have {LINES[name]}"
    for number, line in enumerate(lines, 1):
        if len(line) > COLUMNS:
            yield f"{name}:{number} has {len(line)} columns"
    for sentence in sentences_of(page):
        if count_words(sentence) > WORDS:
            yield f"{name}: a sentence of {count_words(sentence)} words: {sentence}"
    if page.suffix == ".md":
        for link in dead_links(page):
            yield f"{name}: a link that leads nowhere: {link}"
        for file in missing_files(page):
            yield f"{name}: a file that isn't there: {file}"


def tell():
    twice = said_twice()
    print(f"{'page':24}{'lines':>7}{'columns':>9}{'words':>7}{'twice':>7}")
    for page in pages():
        lines = page.read_text().splitlines()
        widest = max(map(len, lines))
        longest = max(map(count_words, sentences_of(page)))
        shared = sum(1 for names in twice.values() if name_of(page) in names)
        print(f"{name_of(page):24}{len(lines):7}{widest:9}{longest:7}{shared:7}")
    print(f"runs of {RUN} words in more than one page: {len(twice)}")


def main():
    if "--twice" in sys.argv[1:]:
        for run, names in said_twice().items():
            print(f"{', '.join(sorted(names))}: {run}")
    elif "--long" in sys.argv[1:]:
        for page in pages():
            for sentence in sentences_of(page):
                if count_words(sentence) > WORDS:
                    print(f"{name_of(page)}: {count_words(sentence)}: {sentence}")
    elif "--check" in sys.argv[1:]:
        found = [fault for page in pages() for fault in faults_of(page)]
        for fault in found:
            print(fault, file=sys.stderr)
        sys.exit(1 if found else 0)
    else:
        tell()


if __name__ == "__main__":
    main()
