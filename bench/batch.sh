#!/usr/bin/env bash
# Asks `gx batch` and `git cat-file --batch` for the same revisions of the same objects, and compares all bytes of the answers, with the objects' bytes and, by
# `--check` and `--batch-check`, without. Both have what `gx export` gives: gx in a store file, git in a new repository. Tells the wall time in seconds and the peak
# memory in MB of each, the best of RUNS runs (3 if it isn't set), and of `gx refs`, which opens the store and does hardly more.
#   bench/batch.sh [STREAM..]     streams of git-fast-import(1); if they are left out, 2,000 small commits with odd paths, modes and submodules, a history of
#                                 2,000 commits, and this repository's own by `git fast-export --all`
# COUNT: how many revisions, 10,000 if it isn't set. GX: the program, crates/gx/out/gx if it isn't set. It needs git, python3 and GNU time.
# Status 1 says that answers differ.
set -euo pipefail
cd "$(dirname "$0")/.."
export LC_ALL=C.UTF-8
gx=$(realpath -m "${GX:-crates/gx/out/gx}")
[ -x "$gx" ] || {
  echo "$gx isn't built" >&2
  exit 2
}
count=${COUNT:-10000}
folder=$(mktemp -d)
trap 'rm -rf "$folder"' EXIT
store=$folder/store
repo=$folder/repo
failed=0

# shellcheck source=bench/best.bash
. bench/best.bash

# a stream as a new store: stored STORE STREAM
stored() {
  rm -f "$1"
  "$gx" init "$1"
  "$gx" import "$1" < "$2" > "$folder/progress"
}

# the objects of an export alone, in both
both_of() {
  stored "$store" "$1"
  "$gx" export "$store" > "$folder/export"
  stored "$store" "$folder/export"
  rm -rf "$repo"
  git init -q --bare -b none "$repo"
  git -C "$repo" fast-import --quiet < "$folder/export" > "$folder/progress"
}

# git's answers, and gx's: compare NAME OF GIT'S OPTION, OPTIONS OF GX
compare() {
  local by_git=$1 gx_time git_time
  shift
  git_time=$(best git -C "$repo" cat-file "$by_git" 2> "$folder/hints")
  mv "$folder/out" "$folder/answers"
  gx_time=$(best "$gx" batch "$@" "$store")
  echo "  gx batch $*: $gx_time; git cat-file $by_git: $git_time; of gx's time, beyond opening: $(awk -v all="${gx_time%% *}" -v opened="${opened%% *}" -v git="${git_time%% *}" \
    'BEGIN { printf "%.3f s, %.2f of git'"'"'s", all - opened, (all - opened) / git }')"
  if cmp "$folder/answers" "$folder/out"; then
    echo "  the same $(stat -c %s "$folder/out") bytes"
  else
    failed=1
  fi
}

kinds() {
  awk '$NF == "missing" { missing++ } $NF == "ambiguous" { ambiguous++ } END { printf "%d missing, %d ambiguous", missing, ambiguous }' "$folder/out"
}

measure() {
  local stream=$1
  both_of "$stream"
  python3 bench/questions.py "$repo" "$count" > "$folder/questions"
  echo "$(basename "$stream"): $(git -C "$repo" rev-list --all --count) commits, $(stat -c %s "$store") bytes of store, $(wc -l < "$folder/questions") revisions"
  opened=$(input=/dev/null best "$gx" refs "$store")
  echo "  gx refs: $opened"
  input=$folder/questions
  compare --batch
  compare --batch-check --check
  echo "  among them $(kinds)"
}

echo "load average before: $(cut -d ' ' -f 1 /proc/loadavg)"
if [ $# -eq 0 ]; then
  python3 bench/streams.py mixed 2000 > "$folder/mixed"
  python3 bench/streams.py history 2000 > "$folder/history"
  git fast-export --all > "$folder/own"
  set -- "$folder/mixed" "$folder/history" "$folder/own"
fi
for stream in "$@"; do
  measure "$stream"
done
exit $failed
