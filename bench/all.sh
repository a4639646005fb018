#!/usr/bin/env bash
# Measures every command of gx beside git doing the same, and beside the limit, which is hashing and writing the same bytes once. Prints a table as TSV,
# which scripts/speed.py reads, behind lines that begin with `#` and tell the machine: for each thing the wall time of the best run in seconds, with its
# processor time in seconds and its peak memory in MB (GNU time's), how many runs there were, and the bytes of what was made or read.
#   bench/all.sh [COMMAND [STREAM]]     COMMAND: import, open, ls, log, show, rev-parse, export, or all; with STREAM also several, joined by commas.
#                                       STREAM: one of bench/streams.py with its numbers, as `steady 10000`; or `own`, this repository by
#                                       `git fast-export --all`; or `linux`, the sources of Linux by bench/linux.sh; or `file PATH`
# Without STREAM there are steady histories of 0, 1,000, 10,000 and 100,000 commits behind the first, histories of 2,000, 10,000 and 40,000, one of 10,000
# with forks and merges, a directory of 10,000 files, 200,000 blobs, the sources of Linux, and this repository; each command is measured on those that it is
# for, see below. All of it takes about half an hour with RUNS=3 and streams that are there.
# RUNS: how many runs, 5 if it isn't set; what took longer than LONG seconds, 10 if it isn't set, isn't run again. GX: the program, crates/gx/out/gx if it
# isn't set. GX_BENCH: the program gx_bench, which hashes by the kit's SHA-1; crates/gx_bench/out/gx_bench if it isn't set, and left out where it isn't built.
# GIT: where it is `no`, git's programs are left out, and names aren't compared with git's.
# STREAMS: a folder of streams, as `steady_10000`, each made there unless it is there. It needs git, sha1sum, python3 and GNU time, what bench/linux.sh needs, and
# 15 GB of disk.
set -euo pipefail
cd "$(dirname "$0")/.."
export LC_ALL=C.UTF-8
gx=$(realpath -m "${GX:-crates/gx/out/gx}")
[ -x "$gx" ] || {
  echo "$gx isn't built" >&2
  exit 2
}
bench=$(realpath -m "${GX_BENCH:-crates/gx_bench/out/gx_bench}")
folder=$(mktemp -d)
trap 'rm -rf "$folder"' EXIT
streams=${STREAMS:-$folder/streams}
mkdir -p "$streams"
RUNS=${RUNS:-5}
LONG=${LONG:-10}
store=$folder/store
repo=$folder/repo
status=0

# shellcheck source=bench/best.bash
. bench/best.bash

before=:
prepare() { $before; }

# what is measured of each stream if none is named
table='
import                   steady 0
all                      steady 1000
all                      steady 10000
import,open,ls,log,show  steady 100000
import,open,export       history 2000
import,open,export       history 10000
import,open              history 40000
import,open,export       forks 10000
import,open              flat 10000 2000
import                   blobs 200000 1000
import,open              linux
all                      own
'

# the file of a stream, which is made unless it is there
stream_of() {
  [ "$1" != file ] || { realpath "$2"; return; }
  local made=$*
  made=$streams/${made// /_}
  if [ ! -f "$made" ]; then
    case $1 in
      own) git fast-export --all ;;
      linux) bench/linux.sh ;;
      *) python3 bench/streams.py "$@" ;;
    esac > "$made.new"
    mv "$made.new" "$made"
  fi
  echo "$made"
}

# how many commits a stream of this kind has: those of its refs where it has sources, in which lines begin as a commit does
commits_of() {
  local -a refs
  case $1 in
    own | file)
      new_store
      "$gx" import "$store" < "$file" > "$folder/out"
      mapfile -t refs < <("$gx" refs "$store" | cut -d ' ' -f 2-)
      "$gx" log "$store" "${refs[@]}" | wc -l
      ;;
    linux) echo 1 ;;
    *) grep -ac '^commit ' "$file" || true ;;
  esac
}

has_git() { [ "${GIT:-yes}" != no ]; }

# one row: row COMMAND PROGRAM BYTES WORD.., where BYTES is `out` for what is printed, or a file or folder
row() {
  local command=$1 program=$2 bytes=$3 runs
  shift 3
  [[ "$program" != 'git '* ]] || has_git || return 0
  timed "$@" > "$folder/runs"
  runs=$(wc -l < "$folder/runs")
  [ "$bytes" != out ] || bytes=$folder/out
  printf '%s\t%s\t%s\t%s\t%s\t%s\n' "$stream" "$commits" "$command" "$program" "$(sort -g "$folder/runs" | head -n 1 |
    awk '{ printf "%s\t%s\t%.1f", $1, $2, $3 / 1024 }')" "$runs"$'\t'"$(find "$bytes" -type f -printf '%s\n' | awk '{ sum += $1 } END { printf "%d", sum }')"
}

new_store() {
  rm -f "$store"
  "$gx" init "$store"
}

new_repo() {
  rm -rf "$repo"
  git init -q --bare -b main "$repo"
  git -C "$repo" config fastimport.unpackLimit 1
}

# the limits of what a store's bytes need
written() { row "$1" 'written once' "$2" dd "if=$2" "of=$folder/copy" bs=1M conv=fsync status=none; }
hashed() {
  row "$1" sha1sum "$store" sha1sum "$store"
  # shellcheck disable=SC2016  # the inner shell's own
  [ ! -x "$bench" ] || input=$store row "$1" "hashed by the kit" "$store" sh -c 'exec "$0" limit > /dev/null 2>&1' "$bench"
}

# The store and the repository of a stream, for all that follows; measured where import is asked for.
import_both() {
  if asked import; then
    input=$file measure_import
  else
    new_store
    "$gx" import "$store" < "$file" > "$folder/out"
    new_repo
    ! has_git || git -C "$repo" fast-import --quiet < "$file" > "$folder/out"
  fi
  ! has_git || "$gx" refs "$store" | cmp - <(git -C "$repo" show-ref) >&2 || {
    echo "$stream: the refs or names differ" >&2
    status=1
  }
}

measure_import() {
  before=new_store
  row import gx "$store" "$gx" import "$store"
  before=new_repo
  row import 'git fast-import, compression 0' "$repo" git -C "$repo" -c core.compression=0 -c pack.compression=0 fast-import --quiet
  row import 'git fast-import' "$repo" git -C "$repo" fast-import --quiet
  before=:
  hashed import
  written import "$store"
  rm "$folder/copy"
}

measure_open() {
  local packs=("$repo"/objects/pack/*.pack)
  row open gx "$store" "$gx" refs "$store"
  row open 'git fsck --full' "$repo" git -C "$repo" fsck --full --no-dangling --no-progress
  row open 'git index-pack --strict' "${packs[0]}" git -C "$repo" index-pack --strict -o "$folder/index" "${packs[0]}"
  hashed open
}

measure_ls() {
  row ls gx out "$gx" ls -r "$store" "$ref"
  row ls 'git ls-tree -r' out git -C "$repo" ls-tree -r "$ref"
}

measure_log() {
  row log gx out "$gx" log "$store" "$ref"
  row log 'git rev-list' out git -C "$repo" rev-list "$ref"
}

measure_show() {
  local path
  path=$("$gx" ls -r "$store" "$ref" | cut -f 2- | grep -v '^"' | tail -n 1)
  row show gx out "$gx" show "$store" "$ref:$path"
  row show 'git cat-file' out git -C "$repo" cat-file blob "$ref:$path"
}

measure_names() {
  local words=("$ref" "$ref~1" "$ref^{tree}")
  row rev-parse gx out "$gx" rev-parse "$store" "${words[@]}"
  row rev-parse 'git rev-parse' out git -C "$repo" rev-parse "${words[@]}"
}

measure_export() {
  row export gx out "$gx" export "$store"
  mv "$folder/out" "$folder/export"
  row export 'git fast-export --full-tree --all' out git -C "$repo" fast-export --full-tree --all
  written export "$folder/export"
  rm "$folder/export" "$folder/copy"
}

asked() { [[ " $commands " == *" $1 "* || " $commands " == *' all '* ]]; }

# measures these commands of a stream: measure COMMANDS STREAM..
measure() {
  commands=$1
  shift
  file=$(stream_of "$@")
  stream=$*
  [ "$1" != file ] || stream=$(basename "$2")
  commits=$(commits_of "$1")
  import_both
  ref=$("$gx" refs "$store" | awk '$2 ~ "^refs/heads/" && ref != "refs/heads/main" { ref = $2 } END { print ref }')
  ! asked open || measure_open
  ! asked ls || measure_ls
  ! asked log || measure_log
  ! asked show || measure_show
  ! asked rev-parse || measure_names
  ! asked export || measure_export
}

# the lines of the table in which a command is measured, each with the command or all of its own
chosen() {
  local these kind
  while read -r these kind; do
    if [ "$1" = all ]; then
      echo "$these $kind"
    elif [[ ",$these," == *",$1,"* || $these = all ]]; then
      echo "$1 $kind"
    fi
  done < <(sed '/^$/d' <<< "$table")
}

echo "# $(sed -n 's/^model name[^:]*: //p' /proc/cpuinfo | head -n 1), $(nproc) processors, $(free -g | awk '/^Mem:/ { print $2 }') GB, $(git --version)"
echo "# load average before: $(cut -d ' ' -f 1 /proc/loadavg); best of $RUNS runs, or of those up to the first that took over $LONG s"
printf 'stream\tcommits\tcommand\tprogram\tseconds\tprocessor\tmegabytes\truns\tbytes\n'
if [ $# -gt 1 ]; then
  measure "${1//,/ }" "${@:2}"
else
  mapfile -t lines < <(chosen "${1:-all}")
  for line in "${lines[@]}"; do
    read -r -a words <<< "$line"
    measure "${words[0]//,/ }" "${words[@]:1}"
  done
fi
echo "# load average after: $(cut -d ' ' -f 1 /proc/loadavg)"
exit $status
