#!/usr/bin/env bash
# Measures imports of histories that branch (bench/branching.py) beside `git fast-import` at compression 0, into an empty store file
# and a new repository each time. For each: wall time in seconds and peak memory in MB, the best of RUNS runs (3 if it isn't set),
# and how many times as fast as git. Then refs, and the names, kinds and sizes of all objects that they reach, are compared with
# git's.
#   bench/branches.sh [KIND FILES COUNT]     all kinds, if none is named
# ROWS: a file that gets a row of each import, as those of bench/all.sh are.
# `exported FILES COUNT` is what `git fast-export --all` writes of the repository of `project FILES COUNT`. The exit status is 1
# where names differ, or a bound is missed: git's time over LEAST (3; of `topics` 5), and 1.5 times the store and 100 MB.
# GX: the program, crates/gx/out/gx if it isn't set. It needs git, python3 and GNU time.
set -euo pipefail
cd "$(dirname "$0")/.."
export LC_ALL=C.UTF-8
gx=$(realpath -m "${GX:-crates/gx/out/gx}")
[ -x "$gx" ] || {
  echo "$gx isn't built" >&2
  exit 2
}
folder=$(mktemp -d)
trap 'rm -rf "$folder"' EXIT
input=$folder/stream
missed=0

# shellcheck source=bench/best.bash
. bench/best.bash

prepare() {
  rm -rf "$folder/repo" "$folder/store"
  git init -q --bare "$folder/repo"
  "$gx" init "$folder/store"
}

uncompressed=(-c core.compression=0 -c pack.compression=0)
git_import() { git -C "$folder/repo" "${uncompressed[@]}" fast-import --quiet < "$input" > /dev/null; }

stream_of() {
  if [ "$1" != exported ]; then
    python3 bench/branching.py "$@" > "$input"
    return
  fi
  python3 bench/branching.py project "${@:2}" > "$input"
  prepare
  git_import
  git -C "$folder/repo" fast-export --all > "$folder/exported"
  mv "$folder/exported" "$input"
}

# refs, and the name, kind and size of each object that they reach, are git's
same_names() {
  "$gx" refs "$folder/store" | cmp - <(git -C "$folder/repo" show-ref) || return 1
  git -C "$folder/repo" rev-list --all --objects --no-object-names > "$folder/names"
  git -C "$folder/repo" cat-file --batch-check < "$folder/names" > "$folder/theirs"
  "$gx" batch --check "$folder/store" < "$folder/names" | cmp - "$folder/theirs"
}

# tells what is missed where a number is over another: bound TEXT NUMBER MOST
bound() {
  awk -v number="$2" -v most="$3" 'BEGIN { exit !(number <= most) }' || {
    echo "  missed: $1"
    missed=1
  }
}

# row STREAM PROGRAM FILE: the best of the runs that were timed last, and the size of what was made
row() {
  [ -z "${ROWS:-}" ] || sort -g "$folder/runs" | head -n 1 | awk -v OFS='\t' -v stream="$1" -v program="$2" -v bytes="$(du -bs "$3" | cut -f 1)" \
    -v commits="$(grep -ac '^commit ' "$input")" -v runs="${RUNS:-3}" '{ print stream, commits, "import", program, $1, $2, sprintf("%.1f", $3 / 1024), runs, bytes }' >> "$ROWS"
}

# as `best`, with the runs kept
best_kept() {
  timed "$@" > "$folder/runs"
  sort -g "$folder/runs" | head -n 1 | awk '{ printf "%s s, %.1f MB", $1, $3 / 1024 }'
}

measure() {
  stream_of "$@"
  local ours theirs store memory least=${LEAST:-3}
  [ "$1" != topics ] || least=5
  theirs=$(best_kept git -C "$folder/repo" "${uncompressed[@]}" fast-import --quiet)
  row "$*" 'git fast-import, compression 0' "$folder/repo/objects"
  ours=$(best_kept "$gx" import "$folder/store")
  row "$*" gx "$folder/store"
  git_import
  store=$(stat -c %s "$folder/store")
  memory=${ours#*, }
  echo "$*: $(stat -c %s "$input") bytes; the store has $store bytes"
  echo "  gx import: $ours"
  echo "  git fast-import, compression 0: $theirs"
  awk -v ours="${ours%% *}" -v theirs="${theirs%% *}" 'BEGIN { printf "  %.1f times as fast\n", theirs / ours }'
  bound "git's time over $least" "$(awk -v ours="${ours%% *}" -v least="$least" 'BEGIN { print ours * least }')" "${theirs%% *}"
  bound 'memory of 1.5 times the store and 100 MB' "${memory% MB}" "$(awk -v store="$store" 'BEGIN { print 1.5 * store / 1048576 + 100 }')"
  if same_names; then echo '  git has the same refs and names'; else missed=1; fi
}

echo "load average before: $(cut -d ' ' -f 1 /proc/loadavg)"
if [ $# -gt 0 ]; then
  measure "$@"
else
  for files in 1000 20000 80000; do measure topics "$files" 350; done
  measure named 20000 2000
  measure lines 20000 1000
  measure branches 20000 1000
  measure rebased 20000 100
  measure octopus 20000 100
  measure tags 1000 1000
  measure exported 2000 5000
fi
exit "$missed"
