#!/usr/bin/env bash
# Measures a store as a remote of git: a clone, beside one of a bare repository with the same objects and beside `gx export --changes` into `git fast-import`;
# a fetch of one commit into that clone; and a push of one commit. Tells the wall time in seconds and the peak memory in MB of each, the best of RUNS runs.
#   bench/remote.sh [STREAM..]    STREAM: one of bench/streams.py with its numbers as one word; 'steady 10000' if none is named
# GX: the program, crates/gx/out/gx if it isn't set. It needs git, python3 and GNU time. git packs at its own compression, as for everybody.
set -euo pipefail
cd "$(dirname "$0")/.."
[ $# -gt 0 ] || set -- 'steady 10000'
export LC_ALL=C.UTF-8 GIT_CONFIG_NOSYSTEM=1 PATH=$PWD/scripts:$PATH
export GIT_AUTHOR_NAME=A GIT_AUTHOR_EMAIL=a@x GIT_COMMITTER_NAME=A GIT_COMMITTER_EMAIL=a@x
GX=$(realpath "${GX:-crates/gx/out/gx}")
export GX
folder=$(mktemp -d)
trap 'rm -rf "$folder"' EXIT
export HOME=$folder
store=$folder/store
bare=$folder/bare.git
copy=$folder/copy

# shellcheck source=bench/best.bash
. bench/best.bash

told() { echo "  $1: $(best "${@:2}")"; }
piped() { "$GX" export --changes "$store" | git -C "$copy" fast-import --quiet; }
export -f piped
export store copy

fresh() { rm -rf "$copy"; }
fresh_bare() { fresh && git init -q --bare "$copy"; }
# a clone of what the remote was before its last commit
behind() { fresh && cp -a "$folder/before" "$copy"; }

measure() {
  rm -rf "$store" "$bare" "$folder/before"
  # shellcheck disable=SC2086
  python3 bench/streams.py $1 > "$folder/stream"
  "$GX" init "$store"
  "$GX" import "$store" < "$folder/stream" > /dev/null
  git init -q --bare -b main "$bare"
  git -C "$bare" fast-import --quiet < "$folder/stream"
  prepare() { :; }
  told 'gx refs' "$GX" refs "$store"
  prepare() { fresh; }
  told 'git clone --bare gx::FILE' git clone -q --bare "gx::$store" "$copy"
  told 'git clone --bare file://DIRECTORY' git clone -q --bare "file://$bare" "$copy"
  prepare() { fresh_bare; }
  told 'gx export --changes, git fast-import' bash -c piped
  fresh && git clone -q --mirror "gx::$store" "$folder/before"
  git -C "$folder/before" config remote.bare.url "file://$bare"
  git -C "$folder/before" config remote.bare.fetch '+refs/*:refs/*'
  one_more
  prepare() { behind; }
  told 'git fetch gx::FILE, one commit' git -C "$copy" fetch -q origin
  told 'git fetch file://DIRECTORY, one commit' git -C "$copy" fetch -q bare
}

# A commit more in both, by a push to each.
one_more() {
  local old new ref
  ref=$(git -C "$folder/before" for-each-ref --format='%(refname)' refs/heads | head -n 1)
  old=$(git -C "$folder/before" rev-parse "$ref")
  cp -a "$folder/before" "$folder/push"
  new=$(git -C "$folder/push" commit-tree -p "$old" -m more "$old^{tree}")
  git -C "$folder/push" push -q "file://$bare" "$new:$ref"
  RUNS=1
  prepare() { :; }
  told 'git push gx::FILE, one commit' git -C "$folder/push" push -q "gx::$store" "$new:$ref"
  unset RUNS
  rm -rf "$folder/push"
}

for stream in "$@"; do
  echo "$stream"
  measure "$stream"
done
