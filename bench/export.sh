#!/usr/bin/env bash
# Measures `gx export --changes` against `git fast-export --all` of the same objects, in one run: wall time in seconds, peak memory in MB and bytes of the
# text, and then how long gx and git take to import either text. The best of three runs; what took longer than LONG seconds, 30 if it isn't set, isn't
# run again. `gx refs` is measured beside them, since an export reads the whole store first. git is at compression 0 throughout.
#   bench/export.sh [STREAM..]      STREAM: one of bench/streams.py with its numbers as one word, as 'steady 10000', or a file;
#                                   'history 10000', 'steady 10000' and 'steady 100000' if none is named
# The bounds: a fifth of git's time, 1.1 times the bytes of git's text, and 1.2 times the store in memory. Each is told with what came. The status is 1
# where git and gx differ, or the history that came of the text from the one that went out, and not where a bound is missed.
# GX: the program; without it crates/gx is built, which needs rt. It needs git, python3 and GNU time, and for 100,000 commits 10 GB of disk.
set -euo pipefail
cd "$(dirname "$0")/.."
[ $# -gt 0 ] || set -- 'history 10000' 'steady 10000' 'steady 100000'
folder=$(mktemp -d)
trap 'rm -rf "$folder"' EXIT
gx=${GX:-$PWD/crates/gx/out/gx}
[ -x "$gx" ] || (cd crates/gx && rt run -- blobs < /dev/null)
LONG=${LONG:-30}
store=$folder/store
repo=$folder/repo
status=0

# shellcheck source=bench/best.bash
. bench/best.bash

new_store() {
  rm -f "$1"
  "$gx" init "$1"
}
new_repo() {
  rm -rf "$1"
  git init -q --bare "$1"
  git -C "$1" config fastimport.unpackLimit 1
}
git=(git -c core.compression=0 -c pack.compression=0)
size() { stat -c %s "$1"; }

# measured NAME WORD..: shows what a command took, and leaves it in `seconds` and `memory`, with the output in $folder/out
measured() {
  local name=$1
  shift
  read -r seconds memory < <(timed "$@" | sort -g | head -n 1 | awk '{ printf "%s %.1f\n", $1, $3 / 1024 }')
  echo "  $name: $seconds s, $memory MB"
}

# bound NAME VALUE LIMIT: whether a value, as a term of awk, keeps within its limit
bound() { awk "BEGIN { value = $2; printf \"  %s: %.2f, %s\\n\", \"$1\", value, value <= $3 ? \"met\" : \"missed\" }"; }

exports() {
  local of_gx of_git
  measured 'gx refs' "$gx" refs "$store"
  measured 'gx export --changes' "$gx" export --changes "$store"
  of_gx=$seconds
  mv "$folder/out" "$folder/changes"
  echo "  bytes: $(size "$folder/changes") by gx"
  bound "memory by the store's bytes, at most 1.2" "$memory * 1048576 / $(size "$store")" 1.2
  measured 'git fast-export --all' git -C "$repo" fast-export --all
  of_git=$seconds
  mv "$folder/out" "$folder/text"
  echo "  bytes: $(size "$folder/text") by git"
  bound "time by git's, at most 0.2" "$of_gx / $of_git" 0.2
  bound "bytes by git's, at most 1.1" "$(size "$folder/changes") / $(size "$folder/text")" 1.1
}

# how long a text takes both, and whether they make the same of it
imports() {
  local name=$1 input=$2
  prepare() { new_store "$folder/store2"; }
  measured "gx import of $name text" "$gx" import "$folder/store2"
  prepare() { new_repo "$folder/repo2"; }
  measured "git fast-import of $name text" "${git[@]}" -C "$folder/repo2" fast-import --quiet
  prepare() { :; }
  same "$name text" "$folder/store2" "$folder/repo2"
}

same() {
  cmp <("$gx" refs "$2") <(git -C "$3" show-ref) || {
    status=1
    echo "FAIL $1: other refs or names"
  }
}

echo "load average before: $(cut -d ' ' -f 1 /proc/loadavg)"
for stream in "$@"; do
  # shellcheck disable=SC2086  # the words of a stream
  if [ -f "$stream" ]; then cat "$stream"; else python3 bench/streams.py $stream; fi > "$folder/stream"
  new_store "$store"
  "$gx" import "$store" < "$folder/stream" > "$folder/out"
  new_repo "$repo"
  "${git[@]}" -C "$repo" fast-import --quiet < "$folder/stream" > "$folder/out"
  echo "$stream: $(git -C "$repo" rev-list --all --count) commits, $(size "$store") bytes of store, $(sed -n '2{s/objects //p;q}' "$store") records"
  exports
  imports "gx's" "$folder/changes"
  same 'what came of it' "$folder/store2" "$repo"
  imports "git's" "$folder/text"
done
exit $status
