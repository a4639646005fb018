"""What bash completes: each line is cut into words as bash does it, and the answers are compared.
"""

from __future__ import annotations

import subprocess
from pathlib import Path

import pytest

from programs import TOP, counted

# reads lines, and prints the answers of each, one a line, with an empty line behind them
BASH = r"""
. "$1"

# in the place of the program, which completion asks for the refs of a store
gx() {
  [ "$1" = refs ] && [ -f "$2" ] || return 1
  for name in HEAD refs/heads/main refs/heads/topic refs/remotes/origin/main 'refs/tags/$(>ran)' refs/tags/v1; do
    echo "02d6adf1689e06135d2b4b4d471f1ae489887b53 $name"
  done
}

# cuts a line into words as bash does: at blanks, and around : = and @
cut_line() {
  local part
  COMP_LINE=$1
  COMP_POINT=${#1}
  COMP_WORDS=()
  while IFS= read -r part; do
    COMP_WORDS+=("$part")
  done < <(printf '%s\n' "$1" | sed -E 's/[:=@]+/\n&\n/g; s/ +/\n/g' | sed '/^$/d')
  case $1 in
    *' ' | '') COMP_WORDS+=('') ;;
  esac
  COMP_CWORD=$((${#COMP_WORDS[@]} - 1))
}

cut_line "$2"
_gx
[ "${#COMPREPLY[@]}" -eq 0 ] || printf '%s\n' "${COMPREPLY[@]}"
"""

# a line up to the cursor, and what may stand there
LINES = [
    (
        "gx ",
        "blobs try check adapt where init grow verify import drop set-ref put gc export bundle show ls archive"
        " batch refs log rev-parse diff merge-base help --help",
    ),
    ("gx -", "--help --explain --version"),
    ("gx --explain im", "import"),
    ("gx --explain import st", "store"),
    ("gx r", "refs rev-parse"),
    ("gx x", ""),
    ("gx help l", "ls log"),
    ("gx blobs ", ""),
    ("gx try ", ""),
    ("gx try -", "--done --force --explain --help"),
    ("gx c", "check"),
    ("gx check ", ""),
    ("gx check -", "--done --force --explain --help"),
    ("gx import --f", "--force"),
    ("gx import --o", "--objects"),
    ("gx import --e", "--explain"),
    ("gx a", "adapt archive"),
    ("gx adapt ", ""),
    ("gx adapt -", "--drop-signatures --help"),
    ("gx w", "where"),
    ("gx where ", ""),
    ("gx where -", "--fault --done --force --help"),
    ("gx where --f", "--fault --force"),
    ("gx import -", "--objects --done --force --push --report --explain --wait --help"),
    ("gx import --push st", "store"),
    ("gx import --push store st", "store"),
    ("gx import --wait ", ""),
    ("gx import --wait 3 st", "store"),
    ("gx import --done st", "store"),
    ("gx import store < st", ""),
    ("gx export store > st", ""),
    ("gx ls -", "-r --recursive --help"),
    ("gx archive -", "--prefix --help"),
    ("gx archive --prefix ", ""),
    ("gx archive --prefix p/ st", "store"),
    ("gx archive --prefix=p/ store t", "topic"),
    ("gx batch -", "--check --command --format -z --help"),
    ("gx batch --format ", ""),
    ("gx batch --command --format x st", "store"),
    ("gx batch --check st", "store"),
    ("gx batch store ", ""),
    (
        "gx log --",
        "--all --stdin --merges --no-merges --since --until --skip --max-count --format --reverse --count --parents --help",
    ),
    ("gx log --since ", ""),
    ("gx log --skip 3 --until 5 st", "store"),
    ("gx log -n ", ""),
    ("gx log -n 3 --format raw st", "store"),
    ("gx log --format ", "oneline raw subject author dates"),
    ("gx log --format o", "oneline"),
    ("gx log --format=r", "raw"),
    ("gx log --all store m", "main"),
    ("gx show -", "--help"),
    ("gx show s", "store sub"),
    ("gx ls -r st", "store"),
    ("gx log --max-count ", ""),
    ("gx log --max-count 3 --reverse st", "store"),
    ("gx log --max-count=3 st", "store"),
    ("gx init su", "sub"),
    ("gx ex", "export"),
    ("gx bu", "bundle"),
    ("gx bundle -", "--all --head --help --pack"),
    ("gx bundle --head main st", "store"),
    ("gx bundle store main..t", "main..topic"),
    ("gx d", "diff drop"),
    ("gx set-ref -", "--force --stdin --wait --help"),
    ("gx set-ref --force st", "store"),
    ("gx set-ref store m", ""),
    ("gx set-ref store refs/heads/t", "refs/heads/topic"),
    ("gx set-ref store refs/heads/topic r", ""),
    ("gx drop su", "sub"),
    ("gx drop -", "--stdin --wait --help"),
    ("gx init -", "--growing --wait --help"),
    ("gx init --growing su", "sub"),
    ("gx gr", "grow"),
    ("gx grow -", "--wait --help"),
    ("gx grow st", "store"),
    ("gx grow store ", ""),
    ("gx v", "verify"),
    ("gx verify -", "--help --salvage"),
    ("gx verify st", "store"),
    ("gx verify store ", ""),
    ("gx p", "put"),
    ("gx put -", "--expect-stamp --wait --help"),
    ("gx put --expect-stamp ", ""),
    ("gx put --expect-stamp new st", "store"),
    ("gx put --expect-stamp new store ", ""),
    ("gx drop --stdin st", "store"),
    ("gx g", "grow gc"),
    ("gx gc -", "--keep --report --wait --help"),
    ("gx gc --keep st", "store"),
    ("gx gc --keep store st", "store"),
    ("gx gc --report st", "store"),
    ("gx gc store ", ""),
    ("gx drop store m", ""),
    ("gx drop store refs/h", "refs/heads/main refs/heads/topic"),
    ("gx drop store refs/heads/main refs/ta", "refs/tags/\\$\\(\\>ran\\) refs/tags/v1"),
    ("gx export su", "sub"),
    ("gx export --", "--changes --no-done --help"),
    ("gx export --changes st", "store"),
    ("gx export --changes store m", "main"),
    ("gx export --changes store main..t", "main..topic"),
    ("gx init store ", ""),
    ("gx show store m", "main"),
    ("gx show store refs/h", "refs/heads/main refs/heads/topic"),
    (
        "gx show store ",
        "HEAD main topic origin/main v1 \\$\\(\\>ran\\) refs/tags/\\$\\(\\>ran\\) refs/heads/main refs/heads/topic refs/remotes/origin/main refs/tags/v1",
    ),
    ("gx show store main ", ""),
    ("gx show store main:", ""),
    ("gx show nowhere m", ""),
    ("gx ls -r store t", "topic"),
    ("gx rev-parse store main v", "v1"),
    ("gx rev-parse store main:a/b t", "topic"),
    ("gx log store ^m", "^main"),
    ("gx log store main..t", "main..topic"),
    ("gx log store main...t", "main...topic"),
    ("gx log store ..t", "..topic"),
    ("gx log --parents store main ^t", "^topic"),
    ("gx log store v1@t", ""),
]


@pytest.fixture
def folder(tmp_path: Path) -> Path:
    """Two folders, and two stores as far as their names go."""
    (tmp_path / "sub").mkdir()
    (tmp_path / "odd name").mkdir()
    (tmp_path / "store").touch()
    (tmp_path / "odd name" / "a store").touch()
    return tmp_path


@pytest.mark.parametrize("line, answers", LINES, ids=[line for line, _ in LINES])
def test_line(folder: Path, line: str, answers: str) -> None:
    counted["command lines completed"] += 1
    words = ["bash", "-c", BASH, "bash", TOP / "completions" / "gx.bash", line]
    done = subprocess.run(words, cwd=folder, capture_output=True, text=True, timeout=60)
    assert set(done.stdout.splitlines()) == set(answers.split())
    assert not (folder / "ran").exists(), "a ref was run as a command"
