#!/usr/bin/env bash
# Measures what checkpoints cost: one stream of small commits, in turn on each of the branches, without checkpoints and with one
# after each commit, each import into an empty store file. Wall time in seconds and peak memory in MB, the best of RUNS runs (3 if it
# isn't set), and how many times as long the import with checkpoints takes.
#   bench/checkpoints.sh [COMMITS [BRANCHES]]     10,000 commits on 100 branches, if they are left out
# It measures the program that GX names, or else builds crates/gx, and needs rt, python3 and GNU time.
set -euo pipefail
cd "$(dirname "$0")/.."
commits=${1:-10000}
branches=${2:-100}
folder=$(mktemp -d)
trap 'rm -rf "$folder"' EXIT
gx=${GX:-$PWD/crates/gx/out/gx}
[ -x "$gx" ] || (cd crates/gx && rt run -- blobs < /dev/null)

# shellcheck source=bench/best.bash
. bench/best.bash
input=$folder/stream

prepare() { rm -f "$folder/store"; "$gx" init "$folder/store"; }

measure() {
  python3 bench/streams.py turns "$commits" "$branches" "$@" > "$input"
  best "$gx" import "$folder/store"
}

echo "load average before: $(cut -d ' ' -f 1 /proc/loadavg)"
echo "$commits commits on $branches branches"
without=$(measure)
echo "  without checkpoints: $without, $(each "$without" "$commits") microseconds a commit"
cp "$folder/store" "$folder/kept"
with=$(measure 1)
echo "  with a checkpoint after each commit: $with, $(each "$with" "$commits") microseconds a commit"
"$gx" refs "$folder/store" | cmp - <("$gx" refs "$folder/kept") && echo '  both have the same refs'
echo "  $(awk -v with="${with%% *}" -v without="${without%% *}" 'BEGIN { printf "%.2f", with / without }') times as long"
