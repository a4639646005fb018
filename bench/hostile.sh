#!/usr/bin/env bash
# Measures inputs whose size is meant to hurt (bench/hostile.py), each at a size, at its double and at four times the size. Beside
# each stand the blobs of 1 KB that have as many bytes together as the first, and `git fast-import` of the last. Then the least
# stack is found on which the deepest inputs work. A row of a Markdown table goes out for each; the exit status is 1 where one
# misses its bound.
#   bench/hostile.sh [KIND..]      all kinds, and then `stack`, if none is named
# The bounds: each doubling takes at most MOST times the time and the memory (2.4), where what is below FLOOR seconds (0.1) or
# 32 MB counts as that; or the last takes no more time than git does. Each run takes at most LIMIT seconds (300) and prints
# what it should. Of the deepest inputs the least stack is found that works, by halving; half of the 8,192 KB that a system gives
# a program has to do.
# GX: the built program, crates/gx/out/gx if it isn't set. RUNS, GIT_RUNS: of how many runs the best is taken, 3 and 1; with
# GIT_RUNS=0 git isn't run. DIVIDE: divides all sizes, for a quick look. It builds crates/gx where there is
# no program, and needs rt, git, python3 and GNU time.
set -euo pipefail
shopt -s inherit_errexit
cd "$(dirname "$0")/.."
folder=$(mktemp -d)
trap 'rm -rf "$folder"' EXIT
gx=${GX:-$PWD/crates/gx/out/gx}
[ -x "$gx" ] || (cd crates/gx && rt run -- blobs < /dev/null)
limit=${LIMIT:-300} most=${MOST:-2.4} floor=${FLOOR:-0.1} divide=${DIVIDE:-1}
memory_floor=32
input=/dev/null
missed=0

declare -A sizes=(
  [line]=100000000 [progress]=10000000 [marks]=1000000 [changes]=1000000 [directory]=25000 [deep]=1000 [swap]=10000
  [resets]=100000 [parents]=10000 [tags]=100000 [rename]=500 [copies]=10 [reload]=10 [walk]=10000 [claimed]=1000000
  [nothing]=10000 [renames]=5000 [folders]=5000 [between]=5000 [copied]=5000 [random]=25000 [emptied]=10000 [changed]=2000 [shared]=2000
  [old]=1000 [tagged]=1000 [standing]=1000 [new]=1000 [moved]=500 [back]=500 [merges]=500 [zeros]=2500000 [delimiter]=5000000
  [stale]=8 [fronts]=500 [apart]=250 [listed]=5
)
all=(
  line progress marks changes directory deep swap resets parents tags rename copies reload walk claimed nothing renames folders between
  copied random emptied changed shared old tagged standing new moved back merges zeros delimiter stale fronts apart listed stack
)

# before each run: an empty store, and a new repository of git's
# shellcheck disable=SC2317  # called by their names
prepare_import() { rm -rf "$folder/store" && "$gx" init "$folder/store"; }
# shellcheck disable=SC2317
prepare_git() { rm -rf "$folder/repo" && git init -q --bare "$folder/repo"; }

# one run within the limit that ends with this status: seconds and MB on a line, or `over`: run_once STATUS COMMAND..
run_once() {
  local wanted=$1 status=0 from to
  shift
  from=$EPOCHREALTIME
  /usr/bin/time -q -f '%M' -o "$folder/time" timeout "$limit" "$@" < "$input" > "$folder/out" 2> "$folder/fault" || status=$?
  to=$EPOCHREALTIME
  case $status in
    "$wanted") echo "$from $to $(cat "$folder/time")" | awk '{ printf "%.3f %.1f\n", $2 - $1, $3 / 1024 }' ;;
    124) echo over ;;
    *) echo "$* ended with status $status: $(head -c 200 "$folder/fault")" >&2; return 1 ;;
  esac
}

# the least time of so many runs, with that run's memory: best RUNS PREPARE STATUS COMMAND..
best() {
  local runs=$1 prepare=$2 run least=''
  shift 2
  for _ in $(seq "$runs"); do
    "$prepare"
    run=$(run_once "$@")
    [ "$run" != over ] || { echo over; return; }
    least=$(printf '%s\n%s\n' "$least" "$run" | grep . | sort -g | head -n 1)
  done
  echo "$least"
}

shown() {
  case $1 in
    over) echo "over $limit s" ;;
    '') ;;
    *) echo "$1" | awk '{ printf "%.2f s, %.1f MB", $1, $2 }' ;;
  esac
}

bytes_of() { stat -c %s "$1" | awk '{ if ($1 < 1000000) printf "%.1f KB", $1 / 1000; else printf "%.1f MB", $1 / 1000000 }'; }

# how many times the first number the second is, and that of the two at least taken for the floor: ratio FIRST SECOND FLOOR
ratio() { echo "$1 $2 $3" | awk '{ if ($1 < $3) $1 = $3; if ($2 < $3) $2 = $3; printf "%.1f", $2 / $1 }'; }
at_most() { awk -v a="$1" -v b="$2" 'BEGIN { exit !(a <= b) }'; }

# whether one run takes at most so many times the memory of another, and so many times its time
keeps_memory() { at_most "$(ratio "${1#* }" "${2#* }" "$memory_floor")" "$most"; }
keeps_time() { at_most "$(ratio "${1% *}" "${2% *}" "$floor")" "$most"; }

# the word for a bound, after git's time and those of three sizes: verdict GIT ONCE TWICE FOUR
verdict() {
  local git=$1
  shift
  if [[ " $* " == *' over '* ]]; then
    echo missed
  elif ! keeps_memory "$1" "$2" || ! keeps_memory "$2" "$3"; then
    echo missed
  elif keeps_time "$1" "$2" && keeps_time "$2" "$3"; then
    echo kept
  elif [ -n "$git" ] && { [ "$git" = over ] || at_most "${3% *}" "${git% *}"; }; then
    echo "kept, by git's time"
  else
    echo missed
  fi
}

ratios() {
  if [ "$1" = over ] || [ "$2" = over ]; then echo '-'; return; fi
  echo "$(ratio "${1% *}" "${2% *}" "$floor"), $(ratio "${1#* }" "${2#* }" "$memory_floor")"
}

# blobs of 1 KB that have as many bytes as a file: plain FILE
plain() {
  python3 bench/streams.py blobs "$(($(stat -c %s "$1") / 1024 + 1))" 1000 > "$folder/plain"
  input=$folder/plain
  best "${RUNS:-3}" prepare_import 0 "$gx" import "$folder/store"
  input=/dev/null
}

# row KIND SIZE BYTES PLAIN GIT ONCE TWICE FOUR
row() {
  local word
  word=$(verdict "${@:5}")
  [ "$word" != missed ] || missed=1
  echo "| $1 $2, $3 | $(shown "$6") | $(shown "$7") | $(shown "$8") | $(ratios "$6" "$7"); $(ratios "$7" "$8") | $(shown "$4") | $(shown "$5") | $word |"
}

# both programs have the same refs, where git came to its end: same_refs GIT
same_refs() {
  [ -n "$1" ] && [ "$1" != over ] || return 0
  "$gx" refs "$folder/store" | cmp - <(git -C "$folder/repo" show-ref) || missed=1
}

measure_stream() {
  local kind=$1 size=$((${sizes[$1]} / divide)) times=() bytes='' beside='' git='' times_size
  for times_size in 1 2 4; do
    python3 bench/hostile.py "$kind" "$((times_size * size))" > "$folder/stream"
    if [ -z "$bytes" ]; then
      bytes=$(bytes_of "$folder/stream")
      beside=$(plain "$folder/stream")
    fi
    input=$folder/stream
    times+=("$(best "${RUNS:-3}" prepare_import 0 "$gx" import "$folder/store")")
  done
  if [ "${GIT_RUNS:-1}" -gt 0 ] && [ "${times[2]}" != over ]; then
    git=$(best "${GIT_RUNS:-1}" prepare_git 0 git -C "$folder/repo" fast-import --quiet)
    same_refs "$git"
  fi
  row "$kind" "$size" "$bytes" "$beside" "$git" "${times[@]}"
  input=/dev/null
}

# a store of so many commits, and a tenth as many words, every second of which excludes: words SIZE STORE
words() {
  rm -f "$2"
  "$gx" init "$2"
  python3 bench/hostile.py chain "$1" | "$gx" import "$2"
  "$gx" log --reverse "$2" main | awk 'NR % 10 == 0 { print (NR % 20 ? "" : "^") $1 }' > "$2.words"
}

measure_walk() {
  local size=$((sizes[walk] / divide)) at times=()
  for at in "$size" "$((2 * size))" "$((4 * size))"; do
    words "$at" "$folder/walked"
    mapfile -t range < "$folder/walked.words"
    times+=("$(best "${RUNS:-3}" : 0 "$gx" log "$folder/walked" -- "${range[@]}")")
  done
  row walk "$size" "$(bytes_of "$folder/walked")" "$(best "${RUNS:-3}" : 0 "$gx" refs "$folder/walked")" '' "${times[@]}"
}

# `log` of so many words `a...b`, each of two commits, over a line of twenty times as many
measure_apart() {
  local size=$((sizes[apart] / divide)) at times=() git
  for at in "$size" "$((2 * size))" "$((4 * size))"; do
    rm -f "$folder/walked"
    "$gx" init "$folder/walked"
    python3 bench/hostile.py chain "$((20 * at))" > "$folder/stream"
    "$gx" import "$folder/walked" < "$folder/stream"
    mapfile -t range < <("$gx" log "$folder/walked" main | head -n "$((2 * at))" | paste -d . - /dev/null /dev/null - | head -n "$at")
    times+=("$(best "${RUNS:-3}" : 0 "$gx" log "$folder/walked" -- "${range[@]}")")
  done
  prepare_git
  git -C "$folder/repo" fast-import --quiet < "$folder/stream"
  git=$(best "${GIT_RUNS:-1}" : 0 git -C "$folder/repo" rev-list "${range[@]}")
  row apart "$size" "$(bytes_of "$folder/walked")" '' "$git" "${times[@]}"
}

# `ls -r` of a tree with two paths to the power of twice a size and five, and of twice and four times as many
measure_listed() {
  local size=$((sizes[listed] / divide)) at times=() git
  for at in "$((2 * size + 5))" "$((2 * size + 6))" "$((2 * size + 7))"; do
    prepare_import
    prepare_git
    python3 bench/hostile.py copies "$at" > "$folder/stream"
    "$gx" import "$folder/store" < "$folder/stream"
    times+=("$(best "${RUNS:-3}" : 0 "$gx" ls -r "$folder/store" main)")
  done
  git -C "$folder/repo" fast-import --quiet < "$folder/stream"
  git=$(best "${GIT_RUNS:-1}" : 0 git -C "$folder/repo" ls-tree -r refs/heads/main)
  row listed "$((2 ** (2 * size + 5)))" "$(bytes_of "$folder/store")" '' "$git" "${times[@]}"
}

measure_claimed() {
  local size=$((sizes[claimed] / divide)) at times=()
  for at in "$size" "$((2 * size))" "$((4 * size))"; do
    python3 bench/hostile.py claimed "$at" > "$folder/claiming"
    times+=("$(best "${RUNS:-3}" : 1 "$gx" refs "$folder/claiming")")
    [ "$(cat "$folder/fault")" = 'gx: store: Truncated' ] || { cat "$folder/fault" >&2; missed=1; }
  done
  row claimed "$size" "$(bytes_of "$folder/claiming")" '' '' "${times[@]}"
}

# the status of a run on a stack of so many KB: on_stack KB COMMAND..
on_stack() {
  local status=0
  (ulimit -s "$1" && shift && exec timeout "$limit" "$@") < "$input" > "$folder/out" 2> "$folder/fault" || status=$?
  echo "$status"
}

# Whether a run does what it should on a stack of so many KB: works_on KB PREPARE COMMAND..
works_on() {
  local size=$1 prepare=$2
  shift 2
  "$prepare"
  [ "$(on_stack "$size" "$@")" = 0 ]
}

# the least stack on which a run does what it should, by halving, to 16 KB: stack_row NAME PREPARE COMMAND..
stack_row() {
  local name=$1 fails=0 works=8192 middle
  shift
  if ! works_on "$works" "$@"; then
    missed=1
    echo "| $name | more than $works KB | missed |"
    return
  fi
  while [ "$((works - fails))" -gt 16 ]; do
    middle=$(((fails + works) / 2))
    if works_on "$middle" "$@"; then works=$middle; else fails=$middle; fi
  done
  echo "| $name | $works KB | $(stack_word "$works") |"
}

# twice the least stack is to be within what systems give a program
stack_word() {
  if [ "$(($1 * 2))" -le 8192 ]; then
    echo kept
  else
    missed=1
    echo missed
  fi
}

measure_stack() {
  local deep=$folder/deepest
  echo
  echo '| What is run | The least stack that works | At most 4,096 KB |'
  echo '|---|---|---|'
  python3 bench/hostile.py deep 3 > "$folder/stream"
  input=$folder/stream
  stack_row 'import, 2,048 components' prepare_import "$gx" import "$folder/store"
  # the last run above may have been on too small a stack
  prepare_import
  "$gx" import "$folder/store" < "$folder/stream"
  cp "$folder/store" "$deep"
  python3 bench/hostile.py rename 2000 > "$folder/stream"
  stack_row 'import, 2,000 renames' prepare_import "$gx" import "$folder/store"
  input=/dev/null
  stack_row 'ls -r, 2,048 components' : "$gx" ls -r "$deep" main
  stack_row 'export, 2,048 components' : "$gx" export "$deep"
  words "$((10000 / divide))" "$folder/walked"
  stack_row 'log, 10,000 commits' : "$gx" log "$folder/walked" main
}

[ $# -gt 0 ] || set -- "${all[@]}"
echo "load average before: $(cut -d ' ' -f 1 /proc/loadavg)"
# shellcheck disable=SC2016  # a table's head
echo '| Input | `gx` | Twice the size | Four times | Times the time and the memory, of each doubling | Blobs, as many bytes | Four times, git | Bound |'
echo '|---|---|---|---|---|---|---|---|'
for kind in "$@"; do
  case $kind in
    walk) measure_walk ;;
    claimed) measure_claimed ;;
    apart) measure_apart ;;
    listed) measure_listed ;;
    stack) measure_stack ;;
    *) [ -n "${sizes[$kind]:-}" ] || { echo "there is no kind $kind: ${all[*]}" >&2; exit 2; }
      measure_stream "$kind" ;;
  esac
done
exit "$missed"
