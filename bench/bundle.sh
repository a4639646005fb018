#!/usr/bin/env bash
# Has `gx bundle` write stores of both forms, and git clone the bundle. Tells processor seconds and the peak memory in MB, the best of RUNS runs (3 if it isn't
# set): of `gx bundle`, of hashing the bundle's bytes and of writing them, and of `git clone --mirror` of the bundle and of the repository.
#   bench/bundle.sh [STREAM..]      streams of git-fast-import(1); if they are left out, a history of 2,000 commits, and this repository's own by
#                                   `git fast-export --all`
# The bounds: 1.5 times hashing and writing, and 2.5 times the clone of the repository for `gx bundle` and the clone of the bundle together. Each is told with
# what came. GX: the program, crates/gx/out/gx if it isn't set. It needs git, python3 and GNU time. Status 1 says that the refs or the objects of the two differ.
set -euo pipefail
cd "$(dirname "$0")/.."
export LC_ALL=C.UTF-8
gx=$(realpath -m "${GX:-crates/gx/out/gx}")
[ -x "$gx" ] || {
  echo "$gx isn't built" >&2
  exit 2
}
folder=$(mktemp -d)
trap 'rm -rf "$folder"' EXIT
plain=$folder/plain
growing=$folder/growing
repo=$folder/repo
bundle=$folder/bundle
mirror=$folder/mirror
failed=0

# shellcheck source=bench/best.bash
. bench/best.bash
prepare() { rm -rf "$mirror"; }

# the least processor time of some runs in seconds, with that run's peak memory in MB
least() { timed "$@" | sort -g -k 2 | head -n 1 | awk '{ printf "%s %.1f", $2, $3 / 1024 }'; }

# bound NAME VALUE LIMIT: whether a value, as a term of awk, keeps within its limit
bound() { awk "BEGIN { value = $2; printf \"  %s: %.2f, %s\\n\", \"$1\", value, value <= $3 ? \"met\" : \"missed\" }"; }

# what a stream makes, in all three
stores_of() {
  rm -rf "$plain" "$growing" "$repo"
  "$gx" init "$plain"
  "$gx" import "$plain" < "$1" > "$folder/progress"
  cp "$plain" "$growing"
  "$gx" grow "$growing"
  git init -q --bare "$repo"
  "$gx" export --changes "$plain" | git -C "$repo" fast-import --quiet
}

objects_in() { git -C "$1" cat-file --batch-all-objects --batch-check; }

# measured NAME WORD..: tells what a command took, and leaves it in `seconds`
measured() {
  local name=$1 memory
  shift
  read -r seconds memory < <(least "$@")
  echo "  $name: $seconds s, $memory MB"
}

measure() {
  local hashed written sent cloned
  stores_of "$1"
  measured 'gx bundle of version 2' "$gx" bundle "$plain"
  mv "$folder/out" "$bundle"
  measured 'gx bundle of version 3' "$gx" bundle "$growing"
  sent=$seconds
  cmp "$folder/out" "$bundle" || failed=1
  measured 'sha1sum' sha1sum "$bundle"
  hashed=$seconds
  measured 'cat' cat "$bundle"
  written=$seconds
  measured 'git clone --mirror of the repository' git clone -q --mirror --no-local "$repo" "$mirror"
  cloned=$seconds
  measured 'git clone --mirror of the bundle' git clone -q --mirror "$bundle" "$mirror"
  echo "  $(stat -c %s "$bundle") bytes of bundle, $(objects_in "$mirror" | wc -l) objects"
  cmp <("$gx" refs "$plain") <(git -C "$mirror" show-ref) || failed=1
  cmp <(objects_in "$mirror") <(objects_in "$repo") || failed=1
  bound 'gx bundle by hashing and writing, at most 1.5' "$sent / ($hashed + $written)" 1.5
  bound 'both by the clone of the repository, at most 2.5' "($sent + $seconds) / $cloned" 2.5
}

echo "load average before: $(cut -d ' ' -f 1 /proc/loadavg)"
if [ $# -eq 0 ]; then
  python3 bench/streams.py history 2000 > "$folder/history"
  git fast-export --all > "$folder/own"
  set -- "$folder/history" "$folder/own"
fi
for stream in "$@"; do
  echo "$(basename "$stream"):"
  measure "$stream"
done
exit $failed
