#!/usr/bin/env bash
# Asks one `gx batch --command` that is kept open, and one `git cat-file --batch-command`, for COUNT objects (100,000 if it isn't set), each once the answer
# before has come: contents and info. The answers have to be the same. Then the same of gx with `ls`, `log` and `rev-parse` among them, which git has none of.
# Both have what `gx export` gives: gx in a store file, git in a new repository.
#   bench/commands.sh [STREAM..]     streams of git-fast-import(1); if they are left out, a history of 2,000 commits, and this repository's own by
#                                    `git fast-export --all`
# GX: the program, crates/gx/out/gx if it isn't set. It needs git and python3. Status 1 says that answers differ.
set -euo pipefail
cd "$(dirname "$0")/.."
export LC_ALL=C.UTF-8
gx=$(realpath -m "${GX:-crates/gx/out/gx}")
[ -x "$gx" ] || {
  echo "$gx isn't built" >&2
  exit 2
}
count=${COUNT:-100000}
folder=$(mktemp -d)
trap 'rm -rf "$folder"' EXIT
store=$folder/store
repo=$folder/repo
failed=0

measure() {
  local by_gx by_git
  rm -rf "$store" "$repo"
  "$gx" init "$store"
  "$gx" import "$store" < "$1" > "$folder/progress"
  "$gx" export "$store" > "$folder/export"
  git init -q --bare -b none "$repo"
  git -C "$repo" fast-import --quiet < "$folder/export" > "$folder/progress"
  echo "$(basename "$1"): $(git -C "$repo" rev-list --all --count) commits, $(stat -c %s "$store") bytes of store, $count lines"
  by_gx=$(python3 bench/driver.py "$repo" "$count" objects "$gx" batch --command "$store")
  by_git=$(python3 bench/driver.py "$repo" "$count" objects git -C "$repo" cat-file --batch-command)
  echo "  contents and info: gx $by_gx"
  echo "  contents and info: git $by_git"
  [ "${by_gx##* }" = "${by_git##* }" ] || failed=1
  echo "  with ls, log and rev-parse: gx $(python3 bench/driver.py "$repo" "$count" all "$gx" batch --command "$store")"
}

echo "load average before: $(cut -d ' ' -f 1 /proc/loadavg)"
if [ $# -eq 0 ]; then
  python3 bench/streams.py history 2000 > "$folder/history"
  git fast-export --all > "$folder/own"
  set -- "$folder/history" "$folder/own"
fi
for stream in "$@"; do
  measure "$stream"
done
exit $failed
