#!/usr/bin/env bash
# Measures the reader of commands against `git fast-import` on a stream of small commits: the best of three runs of the
# reader, which applies nothing, and one run of git, which imports.
#   bench/stream.sh [BYTES]      BYTES: about how long the stream is, 200000000 if left out
# It builds crates/gx_bench, and needs rt, git and python3.
set -euo pipefail
cd "$(dirname "$0")/.."
size=${1:-200000000}
folder=$(mktemp -d)
trap 'rm -rf "$folder"' EXIT
(cd crates/gx_bench && rt run < stdin > "$folder/built")
bench=$PWD/crates/gx_bench/out/gx_bench
python3 bench/streams.py commits "$size" > "$folder/stream"

least() {
  local times=$1 best=''
  shift
  for _ in $(seq "$times"); do
    local begin end
    begin=$(date +%s.%N)
    "$@" > "$folder/out"
    end=$(date +%s.%N)
    best=$(printf '%s\n%s\n' "$best" "$(echo "$end - $begin" | bc)" | grep . | sort -g | head -n 1)
  done
  echo "$best"
}

run_reader() { "$bench" < "$folder/stream"; }
run_fast_import() { rm -rf "$folder/repo" && git init -q --bare "$folder/repo" && git -C "$folder/repo" fast-import --quiet < "$folder/stream"; }
run_cat() { cat < "$folder/stream"; }

bytes=$(stat -c %s "$folder/stream")
load=$(cut -d ' ' -f 1 /proc/loadavg)
reader=$(least 3 run_reader)
commands=$(run_reader)
copy=$(least 3 run_cat)
import=$(least 1 run_fast_import)
rate() { echo "scale=1; $bytes / 1000000 / $1" | bc; }
echo "load average before: $load"
echo "$bytes bytes, $commands commands"
echo "gx_bench: ${reader}s, $(rate "$reader") MB/s"
echo "git fast-import: ${import}s, $(rate "$import") MB/s"
echo "cat: ${copy}s, $(rate "$copy") MB/s"
