#!/usr/bin/env bash
# Runs git's own tests of `git fast-import` and `git fast-export`, records each run of `git fast-import` in them, and gives what
# git takes to `gx import`: a table tells what gx takes, and by what each other run is refused (docs/CONVERTING.md has it).
#   scripts/fast_import_runs.sh [--each] [FOLDER]     --each: a line for each run, too; FOLDER: where git's source and the recorded
#                                                     runs stay; one of its own, dropped at the end, if it is left out
# GX names the program, crates/gx/out/gx if it isn't set; SOURCE a folder of git's source, which is Debian's if it isn't set. It needs
# git, python3 and dpkg-dev. Status 1 tells that a run that both take left other refs or objects.
set -euo pipefail
here=$(cd "$(dirname "$0")" && pwd)
each=()
[ "${1:-}" != --each ] || { each=(--each) && shift; }
if [ $# -gt 0 ]; then
  mkdir -p "$1"
  folder=$(cd "$1" && pwd)
else
  folder=$(mktemp -d)
  trap 'rm -rf "$folder"' EXIT
fi
GX=$(realpath -m "${GX:-$here/../crates/gx/out/gx}")
REAL_GIT=$(command -v git)
RECORDED=$folder/recorded.new
export GX REAL_GIT RECORDED GIT_CONFIG_NOSYSTEM=1
[ -x "$GX" ] || {
  echo "fast_import_runs.sh: there is no $GX" >&2
  exit 2
}

if [ ! -d "$folder/recorded" ]; then
  source=${SOURCE:-$("$here/debian_source.sh" git "$folder")}
  rm -rf "$RECORDED" && mkdir "$RECORDED"
  GIT_BIN=$here/recorder "$here/git_tests.sh" "$source" "$folder/tests" t9300-fast-import t9301-fast-import-notes \
    t9302-fast-import-unpack-limit t9303-fast-import-compression t9304-fast-import-marks t9350-fast-export t9351-fast-export-anonymize
  mv "$RECORDED" "$folder/recorded"
fi
"$here/fast_import_runs.py" "${each[@]}" "$folder/recorded"
