#!/usr/bin/env python3
"""Lists words of specs that mean several things, things that have several words, and words that stand once.

    scripts/vocabulary.py          prints the first two lists with their places, and how long each is
    scripts/vocabulary.py --check  prints the words of these lists alone, one a line
    scripts/vocabulary.py --once   prints the words of one equation that stand in one clause and in no proof

A word of several meanings is a name that several files of specs define. A thing of several words is a definition that
several names have, whatever its equations call what they bind. Rows and examples don't count: no contract cites them,
nor do they cite one. Of `--once`, a word marked with `*` only rearranges arguments: its equation has calls of words
with what it is given, lists and pairs of them, and no relation, arrow, binder, choice or record. The laws of gx_model stand in one clause each.
"""

import re
import sys
from collections import defaultdict

from sources import TOP, crate_of, files, parts_of

START = re.compile(r"^(?P<indent> *)(?:abbrev |unfoldable )?(?:pub )?(?:abbrev )?(?:pub )?(?P<kind>record |data )?(?P<name>[^\s:({]+)(?P<head>.*)$")
BEGINS = re.compile(r"(?:abbrev |unfoldable )?pub (?!mod )\S")
TOKEN = re.compile(r"«[^»]*»|[^\s(){};,«»]+|[(){};,]")
IMPORT = re.compile(r"^\s*(?:ghost )?use Rattle\.(?P<module>[\w.\-]+?)(?:\.\{(?P<names>.*)\}| as (?P<short>\w+));?$")
NAME = re.compile(r"^[a-z_][\w']*$")
CALLED = re.compile(r"^[A-Za-z_][\w'.\-]*$|^[(),\d]+$|^(?:∷|\[\]|\+\+|⊤)$")
APART = re.compile(r"/(Rows|\w+_examples)/")
# What a pattern names without binding it, besides the constructors of data types of our own.
OF_STD = {"zero", "suc", "true", "false", "tt", "refl", "inl", "inr", "let", "in", "if", "then", "else", "elim", "do"}
CHOOSES = {"let", "in", "if", "then", "else", "elim", "do", "record"}


class Word:
    """A definition: its name, the file and line where it stands, its type, and its equations or fields."""

    def __init__(self, path, line, name, kind, head):
        self.path, self.line, self.name, self.kind, self.lines = path, line, name, kind or "", [head]

    def place(self, top):
        return f"{self.path.relative_to(top)}:{self.line}"

    def rearranges(self):
        """Whether its one equation only calls words with what it is given."""
        return all(CALLED.match(token) and token not in CHOOSES for token in TOKEN.findall(self.lines[1].partition(" = ")[2]))


def words_of(path):
    """The definitions of a file. Each goes on to the next one that stands no deeper, or to an empty line."""
    found, word, depth = [], None, 0
    for number, line in enumerate(path.read_text().splitlines(), 1):
        text, indent = line.strip(), len(line) - len(line.lstrip())
        inside = word is not None and indent > depth
        if not text or text.startswith(("use ", "module ", "pub mod ")):
            word = None
        elif text.startswith("--"):
            word = word if inside else None
        elif BEGINS.match(text) and not inside:
            match = START.match(line)
            word, depth = Word(path, number, match.group("name"), match.group("kind"), match.group("head").strip()), indent
            found.append(word)
        elif word is not None:
            word.lines.append(text)
    return found


def constructors(words):
    found = set(OF_STD)
    for word in words:
        if word.kind == "data ":
            found |= {line.split(":")[0].strip() for line in word.lines[1:] if " : " in line}
    return found


def plain(word, known):
    """A definition with its own name and what its equations bind renamed in the order in which they come."""
    names, out = {}, []
    for line in word.lines:
        left, equals, right = line.partition(" = ")
        tokens = [token.rstrip(".") if token != "." else token for token in TOKEN.findall(line)]
        bound = set()
        if equals and left.split()[0] == word.name:
            names = {}
            bound |= {token for token in TOKEN.findall(left)[1:] if NAME.match(token) and token not in known}
        for binder in re.findall(r"λ ([^.]*)\.", line):
            bound |= set(TOKEN.findall(binder))
        bound |= set(re.findall(r"let (\S+)", line)) | set(re.findall(r"(\S+) ←", line))
        for token in tokens:
            base, dot, field = token.lstrip("λ").partition(".")
            if token == word.name:
                out.append("SELF")
            elif base in bound or base in names:
                names.setdefault(base, f"v{len(names)}")
                out.append(names[base] + dot + field)
            else:
                out.append(token)
        out.append("\n")
    return word.kind + " ".join(out)


def all_words(top=TOP):
    return [word for path in files(top, "specs/**/*.antt") if not APART.search(str(path)) for word in words_of(path)]


def several_meanings(words):
    found = defaultdict(list)
    for word in words:
        found[word.name].append(word)
    return {name: those for name, those in found.items() if len({word.path for word in those}) > 1}


def several_words(words):
    known, found = constructors(words), defaultdict(list)
    for word in words:
        if len(word.lines) > 1:
            found[plain(word, known)].append(word)
    return [those for those in found.values() if len(those) > 1]


def module_of(top, path):
    return ".".join(path.relative_to(top).with_suffix("").parts[1:])


class Names:
    """What the names of a file stand for: its own, those that it imports, and modules under a short name."""

    def __init__(self, module, text, own):
        self.names, self.short = {name: (module, name) for name in own}, {}
        for line in text.splitlines():
            match = IMPORT.match(line)
            if match and match["short"]:
                self.short[match["short"]] = match["module"]
            for part in match["names"].split(", ") if match and match["names"] else []:
                name, _, other = part.partition(" as ")
                self.names[other or name] = (match["module"], name)

    def of(self, text):
        """The words that a text cites, each by its module and its name."""
        for token in set(TOKEN.findall(text)):
            base, _, field = token.lstrip("λ").partition(".")
            if base in self.names:
                yield self.names[base]
            elif base in self.short and field:
                yield self.short[base], field.split(".")[0]


def cited(top, words):
    """How often each word is cited by a clause, by another definition and by a file of proofs."""
    clauses, definitions, proofs = defaultdict(int), defaultdict(int), defaultdict(int)
    own = defaultdict(list)
    for word in words:
        own[word.path].append(word)
    for path in files(top, "src/**/*.rt"):
        names = Names("", path.read_text(), [])
        functions, members = parts_of(path)
        for clause in [clause for function in functions for clause in function.clauses] + [clause for _, clause in members]:
            for key in names.of(clause.text):
                clauses[key] += 1
    for path in files(top, "specs/**/*.antt"):
        names = Names(module_of(top, path), path.read_text(), [word.name for word in own[path]])
        for word in own[path] or words_of(path):
            for key in set(names.of(" ".join(word.lines))) - {(module_of(top, path), word.name)}:
                definitions[key] += 1
    for path in files(top, "proofs/**/*.antt"):
        text = path.read_text()
        for key in set(Names("", text, []).of(re.sub(r"^(?:use .*|\s*--.*)$", "", text, flags=re.M))):
            proofs[key] += 1
    return clauses, definitions, proofs


def used_once(top, words):
    """The words of one equation, of all crates but gx_model, that stand in one clause, in no definition and in no proof."""
    clauses, definitions, proofs = cited(top, words)

    def is_once(word):
        key = module_of(top, word.path), word.name
        return clauses[key] == 1 and not definitions[key] and not proofs[key]

    apart = [word for word in words if crate_of(top, word.path) != "gx_model"]
    return [word for word in apart if not word.kind and len(word.lines) == 2 and is_once(word)]


def main():
    words = all_words()
    meanings, things = several_meanings(words), several_words(words)
    if "--check" in sys.argv[1:]:
        print("\n".join(sorted(set(meanings) | {word.name for those in things for word in those})))
        return
    if "--once" in sys.argv[1:]:
        once = used_once(TOP, words)
        for word in once:
            print(f"{word.place(TOP)}: {'*' if word.rearranges() else ''}{word.name}: {word.lines[1]}")
        print(f"words of one equation that stand once: {len(once)}, of which so many only rearrange: {sum(word.rearranges() for word in once)}")
        return
    for name in sorted(meanings):
        print(f"{name}: {' '.join(word.place(TOP) for word in meanings[name])}")
    print()
    for those in sorted(things, key=lambda those: those[0].name):
        print("; ".join(f"{word.name} {word.place(TOP)}" for word in those))
    print(f"\nwords that several files define: {len(meanings)}; definitions that several words have: {len(things)}")


if __name__ == "__main__":
    main()
