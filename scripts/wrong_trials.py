"""Wrong bodies and their trials. For wrong_bodies.py.

A wrong body stands in a file: the source, a text that stands there once, and the text in its place.
It is tried in a copy of its crate, over the libraries that stand built in `out/`, by a check of the
functions that it changes, with those that they call. Several are tried in one check where no two
change one function. One that changes more than functions is tried by a check of the whole crate.
"""

import os
import re
import shutil
import subprocess
import tempfile
from pathlib import Path

from sources import TOP, parts_of

PARTS = ("src", "specs", "proofs")
LINE = re.compile(r"^(file|old|new): ?(.*)$", re.M)
SAID = re.compile(r"^fn (?P<symbol>\S+): (?P<words>.*)$", re.M)
# said of a function that has nothing against it but others
HIDDEN = re.compile(r"no proof: it calls |not proved; it calls ")
# what the prover says of a text that it can't read, where no contract was tried
UNREAD = re.compile(
    r"is not in scope|has no field|is no name|operand is missing|expected the end|cannot continue"
)

REFUSED, PROVED, LIMIT, BAD = "refused", "proved", "limit", "bad"


class Edit:
    """A wrong body: its crate and name, and the texts that it changes."""

    def __init__(self, path):
        self.path, self.crate, self.name = path, path.parts[-3], path.stem
        self.text = path.read_text()
        self.pairs, seen = [], {}
        for word, rest in LINE.findall(self.text):
            seen[word] = rest
            if word == "new":
                self.pairs.append((seen["file"], seen["old"], rest))

    def misfit(self, folder):
        """Why the edit doesn't fit the crate in a folder, if it doesn't."""
        texts = {}
        for file, old, new in self.pairs:
            if not (folder / file).is_file():
                return f"there is no {file}"
            text = texts.get(file) or (folder / file).read_text()
            if text.count(old) != 1:
                return f"its text stands in {file} {text.count(old)} times: {old.strip()}"
            texts[file] = text.replace(old, new)
        return None if self.pairs else "it changes nothing"

    def symbols(self, folder):
        """The functions that it changes, as the prover names them; none where it changes more."""
        found = [symbol_at(folder, file, old) for file, old, _ in self.pairs]
        return [] if None in found else sorted(set(found))


def symbol_at(folder, file, old):
    """The name of the function in whose body a text stands, below its crate."""
    if not file.startswith("src/"):
        return None
    text = (folder / file).read_text()
    lines, at = text.splitlines(), text[: text.index(old)].count("\n") + 1
    before = [function for function in parts_of(folder / file)[0] if function.line <= at]
    function = max(before, key=lambda it: it.line, default=None)
    if function is None:
        return None
    head = lines[function.line - 1]
    end = lines.index(head[: len(head) - len(head.lstrip())] + "}", function.line) + 1
    return "::".join([*owner_of(folder, file, function), function.name]) if at <= end else None


def module_of(file):
    parts = Path(file).with_suffix("").parts[1:]
    return [part for part in parts if part not in ("lib", "main", "mod")]


def owner_of(folder, file, function):
    """How the prover names what a function belongs to: its module, or a type, or a type's trait."""
    trait, apart, kind = function.owner.removeprefix("trait ").rpartition(" for ")
    name = re.sub(r"<.*", "", kind).split("::")[-1].strip("& ")
    if not apart:
        return [*home_of(folder, file, name), name] if name else module_of(file)
    given = re.match(r"(?:\w+::)*From<(?:\w+::)*(\w+)", trait)
    short = re.sub(r"<.*", "", trait).split("::")[-1] + (given[1] if given else "")
    return [*module_of(file), name + short]


def home_of(folder, file, name):
    """The module that declares a type, which may be another than that of its functions."""
    declared = re.compile(rf"^ *(?:pub(?:\([\w :]+\))? )?(?:struct|enum|trait) {name}\b", re.M)
    paths = [folder / file, *sorted((folder / "src").rglob("*.rt"))]
    found = next((path for path in paths if declared.search(path.read_text())), folder / file)
    return module_of(found.relative_to(folder))


class Graph:
    """The crates, and what each stands on."""

    def __init__(self, top=TOP):
        self.top, self.named, self.static = top, {}, set()
        for line in (top / "crates.txt").read_text().splitlines():
            head, colon, rest = line.partition("#")[0].partition(":")
            if colon:
                self.named[head.split()[0]] = rest.split()
                self.static |= {head.split()[0]} if "staticlib" in head.split() else set()

    def below(self, crate):
        """The libraries of the repository below a crate, each after those that it stands on."""
        found = {}
        for name in self.named[crate]:
            if name in self.named:
                found |= dict.fromkeys([*self.below(name), name])
        return list(found)

    def library(self, crate):
        return self.top / "crates" / crate / "out" / "rlib" / f"{crate}.rlib"

    def words(self, crate):
        """The words of a check, over the libraries as they stand built."""
        kit = Path(shutil.which("rt")).resolve().parent.parent
        is_program = (self.top / "crates" / crate / "src" / "main.rt").exists()
        words = ["--crate-name", crate, "src/main.rt" if is_program else "src/lib.rt"]
        words += ["-L", f"dependency={kit}/rlibs"]
        for name in ["std", *self.named[crate]]:
            library = self.library(name) if name in self.named else kit / "rlibs" / f"{name}.rlib"
            words += ["--extern", f"{name}={library}"]
        for name in self.below(crate):
            words += ["-L", f"dependency={self.library(name).parent}"]
        words += ["--crate-type", "staticlib"] if crate in self.static else []
        words += ["--antt-project", f"{kit}/rattle/logic/antt-project.json"]
        words += ["--logic-built", f"{kit}/logic_built", "--jobs", "1"]
        return [f"{kit}/bin/rattle", "check", *words]

    def unbuilt(self, crate):
        return [name for name in self.below(crate) if not self.library(name).is_dir()]


def linked(one, other):
    """Copies what a check kept, modules by links: a check replaces them, and changes none."""
    if one.endswith(".oantt"):
        try:
            return os.link(one, other)
        except OSError:
            pass
    return shutil.copy2(one, other)


class Room:
    """A copy of a crate, in which edits are tried. What a check proves is kept for the next one."""

    def __init__(self, graph, crate, folder):
        self.folder, self.crate = Path(folder), crate
        self.words = [*graph.words(crate), "--incremental", str(self.folder / "kept")]
        for part in PARTS:
            source = graph.top / "crates" / crate / part
            if source.is_dir():
                shutil.copytree(source, self.folder / part)
        kept = graph.top / "crates" / crate / "out" / "incremental"
        if kept.is_dir():
            # what a check of the crate proved, which spares the proofs of what edits call
            shutil.copytree(kept, self.folder / "kept", copy_function=linked, dirs_exist_ok=True)
        self.symbols = {}

    def names(self, edit):
        if edit.name not in self.symbols:
            self.symbols[edit.name] = edit.symbols(self.folder)
        return self.symbols[edit.name]

    def check(self, edits):
        """Checks the copy with all of these edits, and what it said."""
        pairs = [pair for edit in edits for pair in edit.pairs]
        texts = {file: (self.folder / file).read_text() for file, _, _ in pairs}
        changed = dict(texts)
        # from the end on, so that no edit's new text is taken for another's old one
        for file, old, new in sorted(pairs, key=lambda it: -texts[it[0]].index(it[1])):
            at = texts[file].index(old)
            changed[file] = changed[file][:at] + new + changed[file][at + len(old) :]
        only = [word for edit in edits for name in self.names(edit) for word in ("--only", name)]
        try:
            self.write(changed)
            ran = self.run(only)
            # killed most likely for memory, which others may have given back
            return self.run(only) if ran.returncode < 0 else ran
        finally:
            self.write(texts)

    def run(self, only):
        return subprocess.run(
            [*self.words, *only],
            cwd=self.folder,
            stdin=subprocess.DEVNULL,
            stdout=subprocess.PIPE,
            stderr=subprocess.STDOUT,
            text=True,
            errors="replace",
        )

    def write(self, texts):
        for file, text in texts.items():
            (self.folder / file).write_text(text)

    def judge(self, edits):
        """The verdict on each edit, and why, by its name, but on those that another one hides."""
        ran = self.check(edits)
        if not self.names(edits[0]):
            return {edits[0].name: verdict_on_all(ran, edits[0])}
        said = {match["symbol"]: match["words"] for match in SAID.finditer(ran.stdout)}
        symbols = {edit.name: self.symbols_of(edit) for edit in edits}
        if not set().union(*symbols.values()) <= said.keys():
            return self.judge_apart(edits, ran)
        found = {}
        for edit in edits:
            words = [said[symbol] for symbol in symbols[edit.name]]
            own = words if len(edits) == 1 else [it for it in words if not HIDDEN.match(it)]
            kind, why = verdict_by(own)
            if len(edits) == 1 or kind == REFUSED or kind == PROVED and own == words:
                found[edit.name] = kind, why
        return found

    def judge_apart(self, edits, ran):
        """The verdicts where a check of all said nothing of some, as where one isn't read."""
        if len(edits) > 1:
            half = len(edits) // 2
            return self.judge(edits[:half]) | self.judge(edits[half:])
        errors = re.findall(r"^.*error.*$", ran.stdout, re.M)
        return {edits[0].name: (BAD, errors[0] if errors else f"status {ran.returncode}")}

    def symbols_of(self, edit):
        return {f"{self.crate}::{name}" for name in self.names(edit)}


def verdict_by(words):
    """The verdict by what was said of each function that an edit changes."""
    left = [it for it in words if not it.startswith("proved")]
    if not left:
        return PROVED, "it is still proved"
    if all(it.startswith("could not tell") for it in left):
        return LIMIT, left[0]
    return REFUSED, next(it for it in left if not it.startswith("could not tell"))


def verdict_on_all(ran, edit):
    """The verdict by a check of the whole crate."""
    last = ran.stdout.rstrip().rpartition("\n")[2]
    errors = re.findall(r"^(\S+?):\d+:\d+: error: (.*)$", ran.stdout, re.M)
    changed = {file for file, _, _ in edit.pairs}
    ours = [text for file, text in errors if file.removeprefix("./") in changed]
    unread = [text for text in ours if UNREAD.search(text)]
    if ran.returncode == 0:
        return PROVED, "the crate is still proved"
    if ran.returncode == 1 and last.startswith("logic=not-proved") and not unread:
        return REFUSED, errors[0][1] if errors else last
    return (LIMIT, last) if ran.returncode == 3 else (BAD, unread[0] if unread else last)


def side_by_side(room, edits):
    """As many edits as one check can try: no two of one function, or one of more than functions."""
    now, taken = [], set()
    for edit in edits:
        names = set(room.names(edit))
        if not now or names and taken and not names & taken:
            now.append(edit)
            taken |= names
    return now


def try_edits(graph, crate, edits):
    """Tries edits of a crate: the verdicts of each check, and why, by their names."""
    with tempfile.TemporaryDirectory(prefix=f"wrong-{crate}-") as folder:
        room = Room(graph, crate, folder)
        left = list(edits)
        while left:
            now = side_by_side(room, left)
            # where each hides another, one is tried alone
            found = room.judge(now) or room.judge(now[:1])
            left = [edit for edit in left if edit.name not in found]
            yield found
