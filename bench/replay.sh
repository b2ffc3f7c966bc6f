#!/usr/bin/env bash
# Times the turns (atomic steps) of `goheap replay`, without its opening, its parsing and its lines: the time of a run that a budget
# cuts off one turn before the end, less that of a run of one turn. It prints a table: for each script its turns and the
# nanoseconds of processor time that a turn takes, and the milliseconds of the run of one turn.
#   bench/replay.sh           the program of this checkout, the least of five groups of ten runs
#   bench/replay.sh 9         of nine groups
#   bench/replay.sh 9 OTHER   and beside it the program OTHER, its runs among those of the first, so that a machine that is
#                             busy now and then is so for both
set -eu
. "$(dirname "$0")/timing.sh"
. "$(dirname "${BASH_SOURCE[0]}")/scripts.sh"
programs=("$program" "${@:2}")

printf '%-12s %10s' script turns
for _ in "${programs[@]}"; do printf ' %10s %10s' 'ns a turn' 'ms to open'; done
printf '\n'
for name in "${names[@]}"; do
  says "$name" >"$work/script"
  all=$(turns "$work/script")
  for i in "${!programs[@]}"; do whole[i]='' one[i]=''; done
  for _ in $(seq "$runs"); do
    for i in "${!programs[@]}"; do
      whole[i]=$(less "${whole[i]}" "$(ten_runs "${programs[i]}" "$((all - 1))" "$work/script")")
      one[i]=$(less "${one[i]}" "$(ten_runs "${programs[i]}" 1 "$work/script")")
    done
  done
  printf '%-12s %10d' "$name" "$all"
  for i in "${!programs[@]}"; do
    awk -v w="${whole[i]}" -v o="${one[i]}" -v t="$all" 'BEGIN { printf " %10.1f %10.2f", (w - o) * 1e5 / t, o / 10 }'
  done
  printf '\n'
done
