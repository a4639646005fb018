#!/usr/bin/env bash
# Has `gx archive` and `git archive --format=tar` write the tree of the same commit, and compares all bytes. Both have what `gx export` gives: gx in a store file,
# git in a new repository. Tells the wall time in seconds and the peak memory in MB of each, the best of RUNS runs (3 if it isn't set), and of `gx refs`, which
# opens the store and does hardly more.
#   bench/archive.sh [STREAM..]     streams of git-fast-import(1); if they are left out, 10,000 files in one directory, 2,000 files of 100 KB, a history of 2,000
#                                   commits, and this repository's own by `git fast-export --all`
# GX: the program, crates/gx/out/gx if it isn't set. It needs git, python3 and GNU time. Status 1 says that archives differ.
set -euo pipefail
cd "$(dirname "$0")/.."
export LC_ALL=C.UTF-8
gx=$(realpath -m "${GX:-crates/gx/out/gx}")
[ -x "$gx" ] || {
  echo "$gx isn't built" >&2
  exit 2
}
folder=$(mktemp -d)
trap 'rm -rf "$folder"' EXIT
store=$folder/store
repo=$folder/repo
failed=0

# shellcheck source=bench/best.bash
. bench/best.bash

# what a stream makes, in both
both_of() {
  rm -rf "$store" "$repo"
  "$gx" init "$store"
  "$gx" import "$store" < "$1" > "$folder/progress"
  "$gx" export --changes "$store" > "$folder/export"
  git init -q --bare -b none "$repo"
  git -C "$repo" fast-import --quiet < "$folder/export" > "$folder/progress"
}

measure() {
  local ref opened gx_time git_time
  both_of "$1"
  ref=$(git -C "$repo" for-each-ref --sort=-committerdate --format='%(refname)' refs/heads | sed -n 1p)
  opened=$(best "$gx" refs "$store")
  git_time=$(best git -C "$repo" archive --format=tar --worktree-attributes "$ref")
  mv "$folder/out" "$folder/wanted"
  gx_time=$(best "$gx" archive "$store" "$ref")
  echo "$(basename "$1"): $(git -C "$repo" ls-tree -r "$ref" | wc -l) files, $(stat -c %s "$store") bytes of store, $(stat -c %s "$folder/wanted") of archive"
  echo "  gx archive: $gx_time; gx refs: $opened; git archive: $git_time; of gx's time, beyond opening: $(awk -v all="${gx_time%% *}" -v opened="${opened%% *}" \
    -v git="${git_time%% *}" 'BEGIN { printf "%.3f s, %.2f of git'"'"'s", all - opened, (all - opened) / git }')"
  cmp "$folder/wanted" "$folder/out" || failed=1
}

# a commit of so many files of so many bytes: files COUNT BYTES
files() {
  python3 - "$1" "$2" << 'END'
import random, sys
count, size = map(int, sys.argv[1:])
out, chance = sys.stdout.buffer, random.Random(1)
out.write(b"commit refs/heads/main\ncommitter A <a@x> 1 +0000\ndata 0\n")
for i in range(count):
    out.write(b"M 100644 inline d%d/f%d\ndata %d\n%s\n" % (i % 50, i, size, chance.randbytes(size)))
END
}

echo "load average before: $(cut -d ' ' -f 1 /proc/loadavg)"
if [ $# -eq 0 ]; then
  python3 bench/streams.py flat 10000 1 > "$folder/flat"
  files 2000 100000 > "$folder/large"
  python3 bench/streams.py history 2000 > "$folder/history"
  git fast-export --all > "$folder/own"
  set -- "$folder/flat" "$folder/large" "$folder/history" "$folder/own"
fi
for stream in "$@"; do
  measure "$stream"
done
exit $failed
