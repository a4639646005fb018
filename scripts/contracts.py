"""What the contracts of a crate say, and the definitions that they reach. For wrong_bodies.py.

A contract is what `requires` and `ensures` of a function say, a trait's among them, and the views,
invariants and other members of types that stand for proofs alone. It reaches the definitions that
its words name by a `use`, those that these name in turn, in whatever crate, and the types and
traits that it names. Comments and layout count for nothing.
"""

import hashlib
import re
from collections import defaultdict

from sources import crate_of, files, parts_of

WORD = re.compile(r"[^\s(){}\[\]<>;,&*:'\"`|]+")
IMPORT = re.compile(
    r"^\s*(?:ghost )?use Rattle\.(?P<module>[\w.\-]+?)"
    r"(?:\.\{(?P<names>.*)\}| as (?P<short>\w+));?$",
    re.M,
)
OF_RUST = re.compile(r"^\s*(?:pub )?use (?P<crate>gx_\w+)::(?P<what>[^;]*);", re.M)
SECTION = re.compile(r"^ *(?:module _ .* where|(?:abbrev |unfoldable )?mutual)$")
HEAD = re.compile(r"^(?:(?:abbrev|unfoldable|pub|record|data) )*(?P<name>[^\s:({]+)")
MODIFIER = re.compile(r"^(?:abbrev|unfoldable|pub|record|data) ")
CONSTRUCTOR = re.compile(r"^ +(?:pub )?(?P<name>[^\s:]+) : ")
# a contract says the same whoever may call the function
VISIBLE = re.compile(r"^pub(?:\([\w :]+\))? ")
# the crate whose wrong bodies change definitions
LAWS = "gx_model"
TYPE = re.compile(r"^ *(?:pub(?:\([\w :]+\))? )?(?:struct|enum|trait|type) (?P<name>\w+)")


def checksum(texts):
    return hashlib.sha256("\n".join(texts).encode()).hexdigest()[:12]


def plain(text):
    """A text without its lines of comment and its layout."""
    lines = [line.strip() for line in text.splitlines()]
    return " ".join(" ".join(it for it in lines if not it.startswith(("--", "//"))).split())


class Scope:
    """What the words of a file stand for: names in modules of specs, and types by their crates."""

    def __init__(self, text, own=()):
        self.words, self.short = defaultdict(set), defaultdict(set)
        for module, name in own:
            self.words[name.strip("◌")].add((module, name))
        for match in IMPORT.finditer(text):
            if match["short"]:
                self.short[match["short"]].add(match["module"])
            for part in filter(None, (match["names"] or "").split(", ")):
                name, _, other = part.partition(" as ")
                self.words[(other or name).strip("◌")].add((match["module"], name))
        for match in OF_RUST.finditer(text):
            for name in re.findall(r"\w+", match["what"]):
                self.words[name].add((match["crate"], name))

    def cited(self, text):
        """What a text names. A word may be `λname`, `name.field` or `short.name`."""
        for word in set(WORD.findall(text)):
            base, _, field = word.lstrip("λ¬").partition(".")
            yield from self.words.get(base, ())
            if field:
                yield from ((module, field.split(".")[0]) for module in self.short.get(base, ()))


class Declared:
    """A definition or a type: its crate, its text, and the scope of its file."""

    def __init__(self, crate, text, scope):
        self.crate, self.text, self.scope = crate, text, scope


def definitions_of(text):
    """The definitions of a file of specs by name: their lines, and the heads of their sections."""
    sections, ahead, found, name = [], [], {}, None
    for line in text.splitlines():
        if not line.strip() or re.match(r" *(--|use |pub mod )", line):
            continue
        if line.lstrip().startswith("infix"):
            ahead.append(line)
            continue
        indent = len(line) - len(line.lstrip())
        sections = [given for given in sections if given[0] < indent]
        if SECTION.match(line):
            sections.append((indent, line))
            continue
        is_outside = indent <= (sections[-1][0] + 2 if sections else 0)
        if is_outside and (MODIFIER.match(line.strip()) or " : " in line.partition(" = ")[0]):
            name = HEAD.match(line.strip())["name"]
            found.setdefault(name, [head for _, head in sections] + ahead)
            ahead = []
        if name:
            found[name].append(line)
    return found


def types_of(text):
    """The types and traits of a file of code by name, each as the lines of its declaration."""
    lines, found = text.splitlines(), defaultdict(list)
    for at, line in enumerate(lines):
        match = TYPE.match(line)
        end = at + 1
        while match and end < len(lines) and not re.search(r"[;}]$", "".join(lines[at:end])):
            end += 1
        if match and "{" in "".join(lines[at:end]):
            indent = line[: len(line) - len(line.lstrip())]
            end = at + 1 if line.endswith("}") else lines.index(indent + "}", at) + 1
        if match and not re.match(r" *(?:pub )?trait ", line):
            found[match["name"]] += lines[at:end]
    return found


class Contracts:
    """The contracts of the crates below a folder, and what they reach."""

    def __init__(self, top):
        self.top = top
        self.declared, self.constructors, self.roots = {}, {}, {}
        self.types, self.clauses = defaultdict(set), defaultdict(list)
        for path in files(top, "specs/**/*.antt"):
            self.read_specs(path)
        scopes = {path: self.read_code(path) for path in files(top, "src/**/*.rt")}
        for path, scope in scopes.items():
            crate = crate_of(top, path)
            if path.name == "lib.rt":
                self.roots[crate] = scope
            for name in self.types[crate]:
                scope.words[name].add((crate, name))

    def read_specs(self, path):
        text, crate = path.read_text(), crate_of(self.top, path)
        module = ".".join(path.relative_to(self.top).with_suffix("").parts[1:])
        found = definitions_of(text)
        scope = Scope(text, [(module, name) for name in found])
        for name, lines in found.items():
            self.declared[module, name] = Declared(crate, plain("\n".join(lines)), scope)
            for match in filter(None, map(CONSTRUCTOR.match, lines)):
                self.constructors[module, match["name"]] = (module, name)
                scope.words[match["name"]].add((module, name))

    def read_code(self, path):
        text, crate = path.read_text(), crate_of(self.top, path)
        scope, parts = Scope(text), defaultdict(list)
        functions, members = parts_of(path)
        for owner, clause in members:
            self.clauses[crate].append((f"{owner}: {clause.text}", scope))
            parts[owner].append(clause.text)
        for function in filter(lambda it: it.clauses, functions):
            head = VISIBLE.sub("", function.head)
            said = [head, *(clause.text for clause in function.clauses)]
            self.clauses[crate].append((" ".join([function.owner, *said]), scope))
            if function.owner.startswith("trait "):
                parts[function.owner] += said
        for name, lines in types_of(text).items():
            parts[name].insert(0, plain("\n".join(lines)))
        for owner, texts in parts.items():
            # a ghost field has no owner here, and stands in its type's own text
            for name in re.findall(r"\w+", owner)[-1:]:
                self.add_type(crate, name, Declared(crate, " ".join([owner, *texts]), scope))
        return scope

    def add_type(self, crate, name, declared):
        """A type and the members that stand for proofs are one, wherever they stand."""
        self.types[crate].add(name)
        self.declared.setdefault((crate, name), []).append(declared)

    def resolved(self, module, name):
        """The key of what a module has under a name, if a crate here declares it."""
        parts = module.split(".")
        if len(parts) == 1:
            return self.resolved_type(module, name)
        if parts[2:] and parts[2] in ("declared", "contracts"):
            # `declared.entry.Entry.TheVariants` is the type `Entry`
            keys = [(parts[0], [part for part in parts if not part.startswith("The")][-1])]
        else:
            made_by = self.constructors.get((module, name))
            keys = [(module, name), made_by, (".".join(parts[:-1]), parts[-1])]
        return next((key for key in keys if key in self.declared), None)

    def resolved_type(self, crate, name):
        """The key of a type that a crate declares, or hands on from another one."""
        if (crate, name) in self.declared:
            return (crate, name)
        given = self.roots[crate].words.get(name, ()) if crate in self.roots else ()
        return next((key for key in sorted(given) if key in self.declared), None)

    def reached(self, crate):
        """The keys of all definitions and types that the contracts of a crate reach."""
        found, left = set(), []

        def meet(text, scope):
            for target in scope.cited(text):
                key = self.resolved(*target)
                if key and key not in found:
                    found.add(key)
                    left.append(key)

        for text, scope in self.clauses[crate]:
            meet(text, scope)
        while left:
            declared = self.declared[left.pop()]
            for it in declared if isinstance(declared, list) else [declared]:
                meet(it.text, it.scope)
        return found

    def checksums(self, crate):
        """Of a crate's contracts, of what they reach in it, and of what they reach below it."""
        own, below = [], []
        for key in sorted(self.reached(crate)):
            declared = self.declared[key]
            for it in declared if isinstance(declared, list) else [declared]:
                (own if it.crate == crate else below).append(f"{key}: {it.text}")
        said = sorted(text for text, _ in self.clauses[crate])
        return checksum(said), checksum(own), checksum(below)

    def code(self, crate):
        """A checksum of what a crate's wrong bodies change: its code, or definitions of laws."""
        folder = self.top / "crates" / crate
        paths = sorted(folder.glob("specs/**/*.antt" if crate == LAWS else "src/**/*.rt"))
        return checksum(f"{path.relative_to(folder)}: {plain(path.read_text())}" for path in paths)
