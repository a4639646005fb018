# Sourced by the benchmarks. They set `folder`, where files may be written, and may set `input`, a file for standard input, and
# define `prepare`, which is called before each run. RUNS: how many runs, 3 if it isn't set. LONG: seconds; where it is set, nothing is run again
# once a run took longer.

prepare() { :; }

# the runs, a line each: wall time and processor time in seconds, and peak memory in KB; the output of the last is in $folder/out
timed() {
  local from
  for _ in $(seq "${RUNS:-3}"); do
    prepare
    from=$EPOCHREALTIME
    /usr/bin/time -f '%U %S %M' -o "$folder/time" "$@" < "${input:-/dev/null}" > "$folder/out"
    echo "$from $EPOCHREALTIME $(cat "$folder/time")" | awk '{ printf "%.3f %.2f %d\n", $2 - $1, $3 + $4, $5 }' | tee "$folder/run"
    [ "$(awk -v long="${LONG:-0}" '{ print (long > 0 && $1 > long) }' "$folder/run")" = 0 ] || break
  done
}

# the least wall time of these runs in seconds, with that run's peak memory in MB
best() { timed "$@" | sort -g | head -n 1 | awk '{ printf "%s s, %.1f MB", $1, $3 / 1024 }'; }

# microseconds for each of COUNT: each TIME COUNT, where TIME is what `best` answered
each() { echo "$1" "$2" | awk '{ printf "%.2f", $1 * 1000000 / $NF }'; }
