"""What scripts/wrong_bodies.py tells, over copies of the crates in which something is changed."""

from __future__ import annotations

import re
import shutil
import subprocess
from pathlib import Path

import pytest

TOP = Path(__file__).resolve().parent.parent
TRIED = "gx_where"
BELOW = ("gx_model", "gx_text", "gx_stream", "gx_command")
CRATES = (*BELOW, TRIED)
PLACES = "crates/gx_where/specs/Places.antt"
NOUGHT = "crates/gx_where/wrong/lines_are_counted_from_nought.edit"


class Copy:
    """A copy of some crates with their wrong bodies, of the table and of the page."""

    def __init__(self, top: Path) -> None:
        self.top = top
        for crate in CRATES:
            for part in ("src", "specs", "proofs", "wrong", "must-fail"):
                if (TOP / "crates" / crate / part).is_dir():
                    shutil.copytree(TOP / "crates" / crate / part, top / "crates" / crate / part)
        for name in ("scripts", "docs"):
            shutil.copytree(TOP / name, top / name, ignore=shutil.ignore_patterns("__pycache__"))
        lines = (TOP / "crates.txt").read_text().splitlines(keepends=True)
        kept = [line for line in lines if line.split(":")[0] in CRATES]
        (top / "crates.txt").write_text("".join(kept))
        git = ["git", "-c", "user.name=A", "-c", "user.email=a@x"]
        for words in (["init", "-q"], ["add", "crates.txt"], ["commit", "-q", "-m", "A"]):
            subprocess.run([*git, *words], cwd=top, check=True)

    def hold_all(self) -> None:
        """Has the table say that each was refused over the text as it stands."""
        lines = "{key: tree.today(key, 'refused', 'none') for key in tree.edits}"
        code = f"import wrong_bodies; tree = wrong_bodies.Tree(); wrong_bodies.write_lines({lines})"
        subprocess.run(["python3", "-c", code], cwd=self.top / "scripts", check=True)

    def change(self, file: str, old: str, new: str) -> None:
        path = self.top / file
        text = path.read_text()
        assert text.count(old) == 1, f"{file} has {old} {text.count(old)} times"
        path.write_text(text.replace(old, new))

    def run(self, *words: str) -> subprocess.CompletedProcess[str]:
        script = self.top / "scripts" / "wrong_bodies.py"
        return subprocess.run([script, *words], capture_output=True, text=True)

    def stale(self) -> dict[str, str]:
        """What is stale beside what is so without a change, and why."""
        return dict(line.split(": ") for line in self.run("--stale").stdout.splitlines())

    def edits(self, crate: str) -> set[str]:
        folder = self.top / "crates" / crate / "wrong"
        return {f"{crate}/{path.stem}" for path in folder.glob("*.edit")}


@pytest.fixture
def copy(tmp_path: Path) -> Copy:
    return Copy(tmp_path)


@pytest.fixture
def fresh(copy: Copy) -> Copy:
    """A copy whose lines all have today's checksums, whatever is stale here."""
    copy.hold_all()
    assert copy.stale() == {}
    return copy


def test_without_a_clause_all_of_the_crate_are_stale(fresh: Copy) -> None:
    clause = "ensures line { IfOk result (λ place. place.line ≡ line_at text.now place.byte) }"
    fresh.change("crates/gx_where/src/place.rt", f"    {clause}\n", "")
    assert fresh.stale() == dict.fromkeys(fresh.edits(TRIED), "contracts")


def test_a_definition_makes_stale_what_reaches_it(fresh: Copy) -> None:
    fresh.change(PLACES, "line_at text byte = 1 + ", "line_at text byte = 2 + ")
    assert fresh.stale() == dict.fromkeys(fresh.edits(TRIED), "definitions")


def test_a_definition_below_is_told_apart(fresh: Copy) -> None:
    path = fresh.top / "crates/gx_model/specs/Streams/Items.antt"
    path.write_text(re.sub(r"^(is_lf \w+ = .*)$", r"\1 && true", path.read_text(), flags=re.M))
    stale = fresh.stale()
    assert fresh.edits(TRIED) <= stale.keys()
    assert {stale[key] for key in fresh.edits(TRIED)} == {"below"}
    below = sum(why == "below" for why in stale.values())
    assert f"{below} of them by a definition below alone" in fresh.run().stderr


def test_comments_layout_and_proofs_change_nothing(fresh: Copy) -> None:
    file = "crates/gx_where/src/lines.rt"
    fresh.change(file, "/// How many LFs stand in a text.", "/// The LFs of a text, counted.")
    fresh.change(PLACES, "line_at text byte = 1 + ", "line_at text byte =  1  + ")
    for path in (fresh.top / "crates/gx_where/proofs").rglob("*.antt"):
        path.write_text("-- a proof\n" + path.read_text())
    assert fresh.stale() == {}


def test_an_edit_and_one_without_a_line_are_told(fresh: Copy) -> None:
    folder = fresh.top / "crates/gx_where/wrong"
    shutil.copy(folder / "place_shows_no_line.edit", folder / "new.edit")
    fresh.change("crates/gx_where/wrong/place_shows_no_line.edit", "[..0]", "[..1]")
    assert fresh.stale() == {"gx_where/place_shows_no_line": "edit", "gx_where/new": "no line"}


def test_a_text_that_does_not_stand_once_is_told(fresh: Copy) -> None:
    fresh.change(NOUGHT, "old: line: 1 + count_lines(&text[..byte]),", "old: byte")
    done = fresh.run("--check")
    assert done.returncode == 1
    assert "lines_are_counted_from_nought.edit: its text stands in src/place.rt" in done.stderr


SWAPPED = """
import subprocess
from pathlib import Path
import wrong_trials

class Read(wrong_trials.Room):
    def __init__(self, folder):
        self.folder, self.symbols = Path(folder), {"a": ["a"], "b": ["b"]}

    def run(self, only):
        print((self.folder / "src" / "lib.rt").read_text(), end="")
        return subprocess.CompletedProcess(only, 0)

top = Path("../crates/gx_where/wrong")
Read("../swapped").check([wrong_trials.Edit(top / "a.edit"), wrong_trials.Edit(top / "b.edit")])
"""


def test_no_edit_of_a_check_undoes_another(copy: Copy) -> None:
    (copy.top / "swapped" / "src").mkdir(parents=True)
    (copy.top / "swapped" / "src" / "lib.rt").write_text("fn a() { x }\nfn b() { y }\n")
    for name, old, new in (("a", "{ x }", "{ y }"), ("b", "{ y }", "{ x }")):
        text = f"file: src/lib.rt\nold: {old}\nnew: {new}\n"
        (copy.top / "crates/gx_where/wrong" / f"{name}.edit").write_text(text)
    words = ["python3", "-c", SWAPPED]
    done = subprocess.run(words, cwd=copy.top / "scripts", capture_output=True, text=True)
    assert done.stdout == "fn a() { y }\nfn b() { x }\n", done.stderr


HIDDEN = """
import subprocess
from pathlib import Path
import wrong_trials

class Said(wrong_trials.Room):
    def __init__(self):
        self.crate, self.symbols = "c", {"a": ["a"], "b": ["b"]}

    def check(self, edits):
        words = "not proved; it stands on `c.b`, which antt refuses"
        calls = "not proved; it calls `c::b`, which is not proved"
        return subprocess.CompletedProcess([], 1, f"fn c::a: {calls}\\nfn c::b: {words}\\n")

top = Path("../crates/gx_where/wrong")
found = Said().judge([wrong_trials.Edit(top / "a.edit"), wrong_trials.Edit(top / "b.edit")])
print({name: kind for name, (kind, _) in found.items()})
"""


def test_one_that_calls_what_is_refused_has_no_verdict(copy: Copy) -> None:
    for name in ("a", "b"):
        text = f"file: src/lib.rt\nold: {name}\nnew: x\n"
        (copy.top / "crates/gx_where/wrong" / f"{name}.edit").write_text(text)
    words = ["python3", "-c", HIDDEN]
    done = subprocess.run(words, cwd=copy.top / "scripts", capture_output=True, text=True)
    assert done.stdout == "{'b': 'refused'}\n", done.stderr


def is_built() -> bool:
    return all((TOP / "crates" / crate / "out/rlib" / f"{crate}.rlib").is_dir() for crate in BELOW)


@pytest.fixture
def planted(copy: Copy) -> Copy:
    """A copy with one wrong body, over the libraries that stand built here."""
    if not is_built():
        pytest.skip("the libraries below gx_where aren't built")
    for crate in BELOW:
        # without its stamp a library is taken as it is, as one of `rt ci`
        name = f"crates/{crate}/out/rlib/{crate}.rlib"
        shutil.copytree(TOP / name, copy.top / name)
    for path in copy.top.glob("crates/*/wrong/*.edit"):
        if path.stem != "lines_are_counted_from_nought":
            path.unlink()
    return copy


def test_the_gate_tries_a_wrong_body_again_and_one_without_a_line(planted: Copy) -> None:
    planted.hold_all()
    folder = planted.top / "crates/gx_where/wrong"
    shutil.copy(folder / "lines_are_counted_from_nought.edit", folder / "new.edit")
    done = planted.run("--gate")
    assert done.returncode == 0
    assert "gx_where/lines_are_counted_from_nought: refused\n" in done.stderr
    assert "gx_where/new: refused\n" in done.stderr
    assert "wrong bodies: 1 held, 1 stale, 0 of them" in done.stderr
    assert "; 2 tried, 1 of them without a line of today's text, 0 otherwise; " in done.stderr


def test_the_gate_fails_by_a_stale_body_that_is_proved(planted: Copy) -> None:
    planted.hold_all()
    planted.change(NOUGHT, "new: line: count", "new: line: 1 + 0 + count")
    done = planted.run("--gate")
    assert done.returncode == 1
    name = "gx_where/lines_are_counted_from_nought"
    assert f"{name}: proved, in place of refused or limit" in done.stderr


def test_the_gate_tells_a_body_that_is_proved(planted: Copy) -> None:
    planted.change(NOUGHT, "new: line: count", "new: line: 1 + 0 + count")
    planted.hold_all()
    done = planted.run("--gate")
    assert done.returncode == 1
    name = "gx_where/lines_are_counted_from_nought"
    assert f"{name}: proved, in place of refused" in done.stderr


def test_one_that_another_hides_is_tried_apart(planted: Copy) -> None:
    edit = "file: src/place.rt\nold:     if command == 0 {\nnew:     if 0 == command {\n"
    (planted.top / NOUGHT).with_name("means_the_same.edit").write_text(edit)
    planted.hold_all()
    done = planted.run("--gate")
    assert done.returncode == 1
    assert "gx_where/lines_are_counted_from_nought: refused\n" in done.stderr
    assert "gx_where/means_the_same: proved, in place of refused" in done.stderr
