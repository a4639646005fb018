"""Records runs of `git fast-import` by scripts/recorder/git, and has scripts/fast_import_runs.py compare them with gx."""

from __future__ import annotations

from pathlib import Path

from programs import SCRIPTS, Done, Program, Word, printed, run_program

COMMIT = b"commit refs/heads/%s\nmark :1\ncommitter %s 1 +0000\ndata 0\n"
EMPTY_TREE = b"4b825dc642cb6eb9a060e54bf8d69288fbee4904"


class Recorded:
    """A repository, and the folder in which its imports are recorded."""

    def __init__(self, folder: Path, environment: dict[str, str]):
        self.folder, self.runs, log = folder, folder / "runs", folder / "t1234-imports.log"
        self.runs.mkdir()
        log.write_text("expecting success of 1234.6 'before': \nexpecting success of 1234.7 'it works': \n")
        self.environment = {**environment, "RECORDED": str(self.runs), "TEST_LOG": str(log)}
        self.git("init", "-q", "repository")

    def git(self, *words: Word, given: bytes = b"") -> Done:
        return run_program([SCRIPTS / "recorder/git", *words], given, env=self.environment, cwd=self.folder)

    def takes(self, stream: bytes, *words: Word) -> bool:
        """Whether git takes a stream, of which the run is recorded."""
        return self.git("-C", "repository", "fast-import", "--quiet", *words, given=stream).status == 0


def test_recorded_runs(gx: Program, environment: dict[str, str], tmp_path: Path) -> None:
    recorded = Recorded(tmp_path, environment)
    assert recorded.takes(COMMIT % (b"a", b"A <a@x>"), "--export-marks=marks")
    assert recorded.takes(COMMIT % (b"b", b"<b@x>"))
    assert recorded.takes(COMMIT % (b"c", b"C <c@x>") + b"M 040000 %s \n" % EMPTY_TREE)
    assert not recorded.takes(b"commit refs/heads/d\n")

    first = recorded.runs / "t1234-imports-001"
    assert (first / "words").read_bytes() == b"fast-import\0--quiet\0--export-marks=marks\0"
    assert (first / "stdin").read_bytes() == COMMIT % (b"a", b"A <a@x>")
    assert (first / "title").read_text() == "7 it works\n"
    name = (first / "refs").read_bytes().split()[0]
    assert (first / "marks.after").read_bytes() == b":1 %s\n" % name
    assert not list((first / "before/refs/heads").iterdir())

    words = [SCRIPTS / "fast_import_runs.py", recorded.runs]
    told = printed(run_program(words, env=environment), words).decode().splitlines()
    assert told[0] == "recorded: 4, git takes: 3, equal: 1, equal once adapted: 1, differ: 0, refused: 1"
    assert told[3:] == ["| trees by their names (`M 040000`) | 1 | `t1234` 7 |"]
