#!/usr/bin/env python3
"""Gives each recorded run of `git fast-import` to `gx import`, into a store of the same base, and compares.

    scripts/fast_import_runs.py RECORDED           prints a table of what gx takes, and by what the others are refused
    scripts/fast_import_runs.py --each RECORDED    prints a line for each run that git takes

RECORDED has a folder for each run, as scripts/recorder/git makes it. GX names the program. Of a run that both take, the refs
have to be the same, and gx has to hold all objects that git has made, so those of all marks. The base is without what
no store of version 2 holds, as tags of blobs. What is refused or
differs is tried once more behind `gx adapt`. An option that `gx import` doesn't have is a cause of its own, where
it changes what is imported. Status 1 tells that a run differs.
"""

import os
import re
import subprocess
import sys
import tempfile
from collections import defaultdict
from dataclasses import dataclass
from pathlib import Path

from git_objects import Base, base_of

GX = os.environ.get("GX", str(Path(__file__).resolve().parent.parent / "crates/gx/out/gx"))
# what changes nothing of an import's refs and names, or is told by marks
IDLE = ["quiet", "stats", "depth", "active-branches", "max-pack-size", "big-file-threshold", "cat-blob-fd"]
IDLE += ["export-pack-edges", "allow-unsafe-features", "relative-marks", "no-relative-marks", "export-marks"]
MARKS = "earlier runs' marks"
BACK = "answers to `cat-blob` or `ls`"
DATES = "dates in another form (`--date-format`)"
SUBMODULES = "other names for submodules' commits (`--rewrite-submodules-from`)"
OPTIONS = {
    "import-marks": MARKS,
    "import-marks-if-exists": MARKS,
    "date-format": DATES,
    "rewrite-submodules-from": SUBMODULES,
    "rewrite-submodules-to": SUBMODULES,
}
# what a refusal and the line that it tells say of the need; the first that fits
NEEDS = [
    (r"feature (import|export|relative|no-relative)-marks.*|\w+: feature relative-marks", MARKS),
    (r"(feature )?(cat-blob|ls|get-mark)\b", BACK),
    (r"tag ", "tags of blobs and tags"),
    (r"feature date-format|option git date-format", DATES),
    (r"(feature notes|N )", "notes (`N`)"),
    (r"M 0?40000 ", "trees by their names (`M 040000`)"),
    (r"M 160000 :", "a submodule's commit by its mark (`M 160000 :N`)"),
    (r"from 0{40}$", "a ref that is deleted (`from` forty zeros)"),
]


def printed(*words: str | Path, given: bytes = b"") -> bytes:
    return subprocess.run(words, input=given, stdout=subprocess.PIPE, check=True).stdout


@dataclass
class Run:
    """A recorded run: what it was given, and what it left."""

    folder: Path

    def text(self, name: str) -> bytes:
        return (self.folder / name).read_bytes()

    def lines(self, name: str) -> set[bytes]:
        return set(self.text(name).splitlines())

    @property
    def test(self) -> tuple[str, int]:
        """The script's number, and that of the test."""
        title = self.text("title").split()
        return self.folder.name.split("-")[0], int(title[0]) if title else 0

    @property
    def is_taken(self) -> bool:
        return self.text("status").strip() == b"0"

    def options(self) -> list[tuple[str, str]]:
        """The options with their values, those of `feature` lines left out."""
        words = self.text("words").decode().split("\0")[1:-1]
        return [word.lstrip("-").partition("=")[::2] for word in words if word.startswith("-")]


def options_of_gx() -> str:
    return printed(GX, "import", "--help").decode()


def words_for(run: Run, known: str, marks: Path) -> tuple[list[str], str]:
    """The words of `gx import`, and the need that keeps gx from taking the run, or nothing."""
    words = []
    for name, value in run.options():
        is_known = re.search(rf"--{name}\b", known) is not None
        is_idle = name in IDLE or (name.startswith("import-marks") and not run.text("marks.before"))
        if (is_idle and not is_known) or (name, value) == ("date-format", "raw"):
            continue
        if not is_known:
            return [], OPTIONS.get(name, f"the option `--{name}`")
        if name.endswith("port-marks") or name == "import-marks-if-exists":
            value = str(marks if name == "export-marks" else run.folder / "marks.before")
        words.append(f"--{name}={value}" if value else f"--{name}")
    return words, ""


def need_of(told: str) -> str:
    """What a refusal is for. The line that it tells stands in quotes where it has special bytes."""
    fault = re.search(r"^gx: command \d+: (\w+)$", told, re.M)
    line = re.search(r"^gx: line \d+, byte \d+: (.*)$", told, re.M)
    shown = line[1] if line else ""
    if shown.startswith('"'):
        shown = re.sub(r"\\(.)", r"\1", shown[1:-1])
    for pattern, need in NEEDS:
        if re.match(pattern, shown):
            return need
    kind = fault[1] if fault else told.strip().splitlines()[-1]
    return f"{kind}: `{shown}`" if shown else kind


def difference(run: Run, base: Base, store: Path, marks: Path) -> str:
    """How what gx made differs from what git made, or nothing."""
    if marks.exists() and marks.read_bytes() != run.text("marks.after"):
        return "marks"
    refs = set(printed(GX, "refs", store).splitlines())
    wanted = {line for line in run.lines("refs") if line.split()[1] not in base.lacking}
    if refs != wanted:
        return f"refs: {sorted(refs ^ wanted)[:4]}"
    new = [line.split()[0] for line in run.lines("objects") if line.split()[0] not in base.there]
    asked = b"".join(name + b"\n" for name in new)
    lacking = [line for line in printed(GX, "batch", "--check", store, given=asked).splitlines() if line.endswith(b" missing")]
    return f"objects: {lacking[:4]}" if lacking else ""


def tried(run: Run, folder: Path, words: list[str], is_adapted: bool) -> tuple[str, str]:
    """`equal`; or `differs` or `refused`, with what differs or is needed."""
    stream, base, store, marks = run.text("stdin"), base_of(run.folder / "before"), folder / "store", folder / "marks"
    if is_adapted:
        stream = subprocess.run([GX, "adapt"], input=stream, stdout=subprocess.PIPE, stderr=subprocess.DEVNULL).stdout
    marks.unlink(missing_ok=True)
    store.write_bytes(base.text)
    done = subprocess.run([GX, "--explain", "import", *words, store], input=stream, stdout=subprocess.DEVNULL, stderr=subprocess.PIPE)
    if done.returncode != 0:
        return "refused", need_of(done.stderr.decode(errors="replace"))
    differs = difference(run, base, store, marks)
    return ("differs", differs) if differs else ("equal", "")


def result_of(run: Run, known: str) -> tuple[str, str]:
    """How it came out: as `tried` tells, or `adapted` where it is equal once `gx adapt` has had the stream, with what came before."""
    with tempfile.TemporaryDirectory() as name:
        folder = Path(name)
        words, need = words_for(run, known, folder / "marks")
        if need:
            return "refused", need
        first = tried(run, folder, words, is_adapted=False)
        if first[0] != "equal" and tried(run, folder, words, is_adapted=True)[0] == "equal":
            return "adapted", first[1]
        return first


def tests_of(runs: list[Run]) -> str:
    """The numbers of tests, behind those of their scripts."""
    found: dict[str, set[int]] = defaultdict(set)
    for run in runs:
        found[run.test[0]].add(run.test[1])
    return "; ".join(f"`{script}` {', '.join(map(str, sorted(found[script])))}" for script in sorted(found))


def table(results: dict[str, list[Run]]) -> None:
    print("| What a run needs | Runs | Tests |\n|---|---|---|")
    for need, runs in sorted(results.items(), key=lambda each: (-len(each[1]), each[0])):
        print(f"| {need} | {len(runs)} | {tests_of(runs)} |")


def main() -> int:
    each = sys.argv[1:2] == ["--each"]
    runs = [Run(folder) for folder in sorted(Path(sys.argv[-1]).iterdir()) if (folder / "status").exists()]
    taken = [run for run in runs if run.is_taken]
    known = options_of_gx()
    ended: dict[str, int] = defaultdict(int)
    needs: dict[str, list[Run]] = defaultdict(list)
    for run in taken:
        how, what = result_of(run, known)
        ended[how] += 1
        if how in ("refused", "differs"):
            needs[what if how == "refused" else f"differs, {what}"].append(run)
        if each:
            print(f"{run.folder.name}: {how}, {what}: {run.text('title').decode().strip()}")
    taken_by_gx = f"equal: {ended['equal']}, equal once adapted: {ended['adapted']}, differ: {ended['differs']}"
    print(f"recorded: {len(runs)}, git takes: {len(taken)}, {taken_by_gx}, refused: {ended['refused']}")
    table(needs)
    return 1 if ended["differs"] else 0


if __name__ == "__main__":
    sys.exit(main())
