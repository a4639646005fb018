#!/usr/bin/env bash
# Measures imports against `git fast-import` on generated streams: `gx import` into an empty store file, and git at compression 0
# and as it comes, into a new repository each time. For each, wall time in seconds and peak memory in MB; the best of RUNS runs
# of gx (3 if it isn't set), and of GIT_RUNS of git (1).
#   bench/import.sh KIND NUMBER..    one stream of bench/streams.py, as `history 2000` or `flat 10000 2000`
#   bench/import.sh                  history of 500, 2,000, 10,000 and 40,000 commits, steady of 0, 2,000, 10,000 and 40,000 behind
#                                    the first, and 2,000 commits in a directory of 10,000 files
# GX: the built program, crates/gx/out/gx if it isn't set. It builds crates/gx where there is none, and needs rt, git, python3 and
# GNU time.
set -euo pipefail
cd "$(dirname "$0")/.."
folder=$(mktemp -d)
trap 'rm -rf "$folder"' EXIT
gx=${GX:-$PWD/crates/gx/out/gx}
[ -x "$gx" ] || (cd crates/gx && rt run -- blobs < /dev/null)

# shellcheck source=bench/best.bash
. bench/best.bash
input=$folder/stream

# an empty store and a new repository each time
prepare() {
  rm -rf "$folder/repo" "$folder/store"
  git init -q --bare "$folder/repo"
  "$gx" init "$folder/store"
}

# the digits of the refs' objects in gx's store and in git's repository
same_refs() {
  "$gx" refs "$folder/$1" | cmp - <(git -C "$folder/repo" show-ref) && echo '  git has the same refs and names'
}

measure() {
  python3 bench/streams.py "$@" > "$folder/stream"
  local commits=${!#}
  echo "$*: $(stat -c %s "$folder/stream") bytes"
  local time
  time=$(best "$gx" import "$folder/store")
  cp "$folder/store" "$folder/kept"
  echo "  gx import: $time, $(each "$time" "$((commits > 0 ? commits : 1))") microseconds a commit; the store has $(stat -c %s "$folder/kept") bytes"
  echo "  git fast-import: $(RUNS=${GIT_RUNS:-1} best git -C "$folder/repo" fast-import --quiet)"
  echo "  git fast-import, compression 0: $(RUNS=${GIT_RUNS:-1} best git -C "$folder/repo" -c core.compression=0 -c pack.compression=0 fast-import --quiet)"
  same_refs kept
}

echo "load average before: $(cut -d ' ' -f 1 /proc/loadavg)"
if [ $# -gt 0 ]; then
  measure "$@"
else
  for commits in 500 2000 10000 40000; do measure history "$commits"; done
  for commits in 0 2000 10000 40000; do measure steady "$commits"; done
  measure flat 10000 2000
fi
