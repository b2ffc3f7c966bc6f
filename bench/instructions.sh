#!/usr/bin/env bash
# Counts the instructions of a turn (atomic step) of `goheap replay`, by `valgrind --tool=callgrind`: those of a run that a budget cuts off
# one turn before the end, less those of a run of one turn. Unlike times they are the same in each run, however busy the machine is. It
# prints a table: for each script its turns, and the instructions of one.
#   bench/instructions.sh            the program of this checkout
#   bench/instructions.sh OTHER      and beside it the program OTHER, whose turns are counted too
# SCRIPTS, where it is set, are the names of those that are wanted, as in SCRIPTS='statements full' bench/instructions.sh
set -eu
others=("$@")
set --
. "$(dirname "$0")/timing.sh"
. "$(dirname "${BASH_SOURCE[0]}")/scripts.sh"
command -v valgrind >/dev/null || { echo 'bench/instructions.sh: there is no valgrind here' >&2; exit 2; }
programs=("$program" "${others[@]}")

# The instructions of a run of a program under a budget, on the script.
instructions() {
  valgrind --tool=callgrind --callgrind-out-file="$work/counts" "$1" replay --budget "$2" <"$work/script" 2>&1 >"$work/out" |
    sed -n 's/.*Collected : \([0-9]*\).*/\1/p'
}

printf '%-12s' script
for _ in "${programs[@]}"; do printf ' %10s %12s' turns instructions; done
printf '\n'
for name in ${SCRIPTS:-${names[@]}}; do
  says "$name" >"$work/script"
  printf '%-12s' "$name"
  for program in "${programs[@]}"; do
    all=$(turns "$work/script")
    whole=$(instructions "$program" "$((all - 1))")
    one=$(instructions "$program" 1)
    awk -v w="$whole" -v o="$one" -v t="$all" 'BEGIN { printf " %10d %12.1f", t, (w - o) / (t - 2) }'
  done
  printf '\n'
done
