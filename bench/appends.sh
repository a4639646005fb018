#!/usr/bin/env bash
# Measures what is appended to a growing store: an import of ten commits beside `git fetch`, and into a store and larger ones with
# the same tip; a drop of one ref besides its syncs; and a mirror with nothing new.
#   bench/appends.sh [GX [FOLDER]]    GX: the built program, crates/gx/out/gx if left out; FOLDER: where stores are made, and found
#                                     when they stand there, as those of bench/looks.sh; a temporary one if left out
# SIZES: megabytes of the store, of the smaller one and of the larger one, `1000 100 4000` if it isn't set. RUNS: how many runs, 5 if it
# isn't set. It needs python3, git, strace and GNU time, five times the larger store on the disk, and 1.2 times it in memory.
set -euo pipefail
shopt -s inherit_errexit
gx=$(realpath "${1:-$(dirname "$0")/../crates/gx/out/gx}")
[ -x "$gx" ] || { echo "$gx isn't built" >&2; exit 2; }
if [ -n "${2:-}" ]; then
  mkdir -p "$2" && folder=$(realpath "$2")
else
  folder=$(mktemp -d) && trap 'rm -rf "$folder"' EXIT
fi
cd "$(dirname "$0")/.."
read -r size small large <<< "${SIZES:-1000 100 4000}"
# shellcheck source=bench/stores.bash
. bench/stores.bash

stored "$size"
beside "$size"
echo "load average before: $(cut -d ' ' -f 1 /proc/loadavg)"
store=$folder/$size.gx
python3 bench/appends.py stream "$gx" "$store" > "$folder/commits"
python3 bench/appends.py import "$gx" "$store" "$folder/commits" "$folder/$size.git"
python3 bench/appends.py drop "$gx" "$store"
python3 bench/appends.py mirror "$gx" "$store" "$folder/$size.git"

stored "$small"
padded "$small" "$size"
padded "$small" "$large"
python3 bench/appends.py stream "$gx" "$folder/$small.gx" > "$folder/commits"
python3 bench/appends.py same "$gx" "$folder/commits" "$folder/$small.gx" "$folder/$small-in-$size.gx" "$folder/$small-in-$large.gx"
