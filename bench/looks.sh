#!/usr/bin/env bash
# Measures questions to a growing store beside git: processor time, clock without cached files, reads, and memory; a batch; and
# what questions read of a store and of a larger one with the same tip.
#   bench/looks.sh [GX [FOLDER]]      GX: the built program, crates/gx/out/gx if left out; FOLDER: where stores are made, and found
#                                     when they stand there, a temporary one if left out
# SIZES: megabytes of the store, of the smaller one and of the larger one, `1000 100 4000` if it isn't set. RUNS: how many runs, 20 if it
# isn't set. It needs python3, git, strace and GNU time, five times the larger store on the disk, and 1.2 times it in memory.
set -euo pipefail
shopt -s inherit_errexit
gx=$(realpath "${1:-$(dirname "$0")/../crates/gx/out/gx}")
[ -x "$gx" ] || { echo "$gx isn't built" >&2; exit 2; }
if [ -n "${2:-}" ]; then
  mkdir -p "$2" && folder=$(realpath "$2")
else
  folder=$(mktemp -d) && trap 'rm -rf "$folder"' EXIT
fi
cd "$(dirname "$0")/.."
read -r size small large <<< "${SIZES:-1000 100 4000}"

# shellcheck source=bench/stores.bash
. bench/stores.bash

stored "$size"
beside "$size"
echo "load average before: $(cut -d ' ' -f 1 /proc/loadavg)"
python3 bench/looks.py table "$gx" "$folder/$size.gx" "$folder/$size.git"
python3 bench/looks.py batch "$gx" "$folder/$size.gx"

stored "$small"
padded "$small" "$large"
python3 bench/looks.py reads "$gx" "$folder/$small.gx" "$folder/$small-in-$large.gx"
