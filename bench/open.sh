#!/usr/bin/env bash
# Measures how long a store file takes to be opened: `gx refs FILE`, which reads and checks all of it and prints one line, against
# `sha1sum FILE`. For each, wall time in seconds and peak memory in MB; the best of three runs, none longer than the limit.
#   bench/open.sh [GX [LIMIT]]      GX: the built program, crates/gx/out/gx if left out; LIMIT: seconds for a run, 300 if left out
# The megabytes of the stores stand in SIZES, `25 100 400` if it isn't set. It needs python3 and GNU time.
set -euo pipefail
shopt -s inherit_errexit
gx=${1:-$(dirname "$0")/../crates/gx/out/gx}
limit=${2:-300}
gx=$(realpath "$gx")
cd "$(dirname "$0")/.."
[ -x "$gx" ] || { echo "$gx isn't built" >&2; exit 2; }
folder=$(mktemp -d)
trap 'rm -rf "$folder"' EXIT

# one run within the limit: seconds and kilobytes on a line, or `over`
run_once() {
  local status=0
  /usr/bin/time -q -f '%e %M' -o "$folder/time" timeout "$limit" "$@" > "$folder/out" || status=$?
  case $status in
    0) cat "$folder/time" ;;
    124) echo over ;;
    *) echo "$* ended with status $status" >&2; return 1 ;;
  esac
}

# the least time of three runs, with that run's memory
best() {
  local run least=''
  for _ in 1 2 3; do
    run=$(run_once "$@")
    [ "$run" != over ] || { echo over; return; }
    least=$(printf '%s\n%s\n' "$least" "$run" | grep . | sort -g | head -n 1)
  done
  echo "$least"
}

shown() {
  [ "$1" != over ] || { echo "over $limit s"; return; }
  echo "$1" | awk '{ printf "%s s, %.1f MB", $1, $2 / 1024 }'
}

# microseconds for each record: each TIME RECORDS
each() {
  [ "$1" != over ] || { echo ''; return; }
  echo "$1" "$2" | awk '{ printf "%.1f", $1 * 1000000 / $NF }'
}

ratio() {
  [ "$1" != over ] || { echo ''; return; }
  echo "$1 $2" | awk '{ if ($3 > 0) printf "%.1f", $1 / $3 }'
}

# one line of the table: measure MEGABYTES SHAPE
measure() {
  local opened summed records
  python3 bench/store.py "${1}000000" "$2" > "$folder/store"
  records=$(sed -n '2{s/objects //p;q}' "$folder/store")
  tail -n 2 "$folder/store" | head -n 1 > "$folder/refs"
  opened=$(best "$gx" refs "$folder/store")
  [ "$opened" = over ] || cmp "$folder/refs" "$folder/out"
  summed=$(best sha1sum "$folder/store")
  echo "| $1 MB, $2, $records records | $(shown "$opened") | $(each "$opened" "$records") | $(shown "$summed") | $(ratio "$opened" "$summed") |"
}

echo "load average before: $(cut -d ' ' -f 1 /proc/loadavg)"
# shellcheck disable=SC2016  # a table's head
echo '| Store | `gx refs` | Microseconds a record | `sha1sum` | Ratio |'
echo '|---|---|---|---|---|'
for size in ${SIZES:-25 100 400}; do
  measure "$size" source
  measure "$size" large
done
