"""What stands in the crates of a checkout: files, functions, and the clauses of contracts. For house.py and vocabulary.py."""

import re
from pathlib import Path

TOP = Path(__file__).resolve().parent.parent
# What tries or measures the others.
TRIES = re.compile(r"_examples$|^gx_(devices|sessions|bench)$")
CLAUSE = re.compile(r"^\s*(?:(?:requires|ensures)\b|ghost \w+ ?[=:])")
HEAD = re.compile(r'^(?P<indent> *)(?P<pub>pub(?:\([\w :]+\))? )?(?:const |unsafe |extern "C" )*fn (?P<name>\w+)')
OWNER = re.compile(r"^(?P<pub>pub )?(?:unsafe )?(?P<what>impl|trait)\b(?P<rest>.*)$")


def files(top, pattern, tries=True):
    """The files of all crates, or of those that try no others, in the order of their names."""
    found = [path for path in sorted(top.glob(f"crates/*/{pattern}")) if "out" not in path.parts]
    return [path for path in found if tries or not TRIES.search(crate_of(top, path))]


def crate_of(top, path):
    return path.relative_to(top).parts[1]


class Clause:
    """A clause of a contract, or a member that stands for proofs alone: its lines, and the number of the first."""

    def __init__(self, line, lines):
        self.line, self.lines = line, lines
        self.text = re.sub(r"\s+", " ", " ".join(lines)).strip().rstrip(";")

    def name(self):
        match = re.match(r"(?:(?:requires|ensures)\*? (\w+) |ghost (\w+))", self.text)
        return match and (match[1] or match[2])


class Function:
    """A function: what it belongs to, its head in one line, its clauses, and the lines of its body."""

    def __init__(self, line, match, owner):
        self.line, self.name, self.owner = line, match["name"], owner
        self.public = match["pub"] == "pub " or owner.startswith("trait ") or " for " in owner
        self.exported = 'extern "C" fn' in match[0]
        self.head, self.clauses, self.body = "", [], []

    def called(self):
        return f"{self.owner}::{self.name}" if self.owner else self.name


def without_parameters(text, start):
    """A text without what stands there between `<` and its `>`."""
    depth = 0
    for at in range(max(start, 0), len(text)):
        depth += {"<": 1, ">": -1}.get(text[at], 0)
        if not depth:
            return text if start < 0 else text[:start] + text[at + 1 :]
    return text


def owner_of(lines, at):
    """What an `impl` or a trait is of: `Type`, `Trait for Type` or `trait Name`, without the parameters of types."""
    match = OWNER.match(lines[at])
    if not match:
        return None
    text = match["rest"]
    while "{" not in text and ";" not in text and at + 1 < len(lines):
        at += 1
        text += " " + lines[at].strip()
    text = text.split("{")[0].split(" where ")[0].replace("->", "").strip()
    text = without_parameters(text, 0) if text.startswith("<") else text
    trait, apart, name = text.rpartition(" for ")
    name = (trait.strip() + apart + without_parameters(name, name.find("<"))).split(": ")[0].strip()
    return f"trait {name}" if match["what"] == "trait" else name


def clause_at(lines, at):
    """The clause that begins on this line, and the line behind it."""
    end = at + 1
    while "".join(lines[at:end]).count("{") > "".join(lines[at:end]).count("}") and end < len(lines):
        end += 1
    return Clause(at + 1, lines[at:end]), end


def function_at(lines, at, match, owner):
    """The function whose head begins on this line, and the line behind it."""
    made, head = Function(at + 1, match, owner), []
    while at < len(lines):
        text = lines[at].rstrip()
        if CLAUSE.match(text):
            clause, at = clause_at(lines, at)
            made.clauses.append(clause)
            if clause.lines[-1].endswith("};"):
                break
            continue
        at += 1
        head.append(text.strip())
        if text.endswith("{"):
            end = lines.index(match["indent"] + "}", at)
            made.body, at = lines[at:end], end + 1
            break
        if text.endswith((";", "}")):
            break
    made.head = " ".join(head).replace("( ", "(").replace(", )", ")").rstrip("{;} ")
    return made, at


def parts_of(path):
    """The functions of a file, and the ghost members of its types and traits, each with what it belongs to."""
    lines, at, owner = path.read_text().splitlines(), 0, ""
    functions, members = [], []
    while at < len(lines):
        match = HEAD.match(lines[at])
        if lines[at].startswith("}"):
            owner = ""
        owner = owner_of(lines, at) or owner
        if match:
            made, at = function_at(lines, at, match, owner if match["indent"] else "")
            functions.append(made)
        elif CLAUSE.match(lines[at]):
            clause, at = clause_at(lines, at)
            members.append((owner, clause))
        else:
            at += 1
    return functions, members
