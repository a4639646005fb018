#!/usr/bin/env bash
# Measures `gx blobs` against git's own hashing: wall time in seconds and peak memory in MB, the best of three runs.
#   bench/blobs.sh [COUNT..]      COUNT: how many blobs of 1 KB; 200000, and four and sixteen times as many, if left out
# It needs the built program (GX, or that of rt run in crates/gx), git, sha1sum, python3 and GNU time.
set -euo pipefail
cd "$(dirname "$0")/.."
[ $# -gt 0 ] || set -- 200000 800000 3200000
gx=${GX:-$PWD/crates/gx/out/gx}
folder=$(mktemp -d)
trap 'rm -rf "$folder"' EXIT

# shellcheck source=bench/best.bash
. bench/best.bash

# git imports into a new repository each time
prepare() { rm -rf "$folder/repo" && git init -q --bare "$folder/repo"; }

echo "load average before: $(cut -d ' ' -f 1 /proc/loadavg)"
python3 bench/streams.py blob 268435456 > "$folder/one"
tail -n +3 "$folder/one" | head -c 268435456 > "$folder/body"
echo 'one blob of 256 MB'
input=$folder/one
echo "  gx blobs: $(best "$gx" blobs)"
input=$folder/body
echo "  sha1sum: $(best sha1sum)"
echo "  git hash-object: $(best git hash-object --stdin --literally)"
rm "$folder/one" "$folder/body"
input=$folder/many
for count in "$@"; do
  python3 bench/streams.py blobs "$count" 1024 > "$folder/many"
  echo "$count blobs of 1 KB"
  time=$(best "$gx" blobs)
  echo "  gx blobs: $time, $(each "$time" "$count") microseconds a blob"
  echo "  git fast-import: $(best git -C "$folder/repo" fast-import --quiet)"
done
