#!/usr/bin/env bash
# Times a load, a store and a new on the handle of a processor (`goheap_handles`), beside a plain loop of as many atomic operations, and beside
# the same statement in `goheap replay`. Each is the wall time of a run with many rounds, less that of a run with few, over the difference of
# the rounds; the least of five such runs. It prints a table: nanoseconds a round, and what that is to the plain loop in this run.
#   bench/handles.sh      the programs of this checkout
#   bench/handles.sh 9    the least of nine runs
# GOHEAP names the program goheap, GOHEAP_HANDLES the program goheap_handles; without the second it is proved and built here.
set -eu
. "$(dirname "$0")/timing.sh"
handles=${GOHEAP_HANDLES:-$here/crates/goheap_handles/out/goheap_handles}
if [ -z "${GOHEAP_HANDLES:-}" ]; then
  mapfile -t args <"$here/crates/goheap_handles/args"
  (cd "$here/crates/goheap_handles" && rt run -- "${args[@]}" >/dev/null)
fi

# The nanoseconds that a command takes, on a text.
once() {
  local text=$1 begun
  shift
  begun=$(date +%s%N)
  "$@" <"$text" >"$work/out"
  echo $(($(date +%s%N) - begun))
}
: >"$work/empty"

# The nanoseconds of a round of a work of goheap_handles.
round() {
  local work_name=$1 few=$2 many=$3 least_few='' least_many=''
  for _ in $(seq "$runs"); do
    least_few=$(less "$least_few" "$(once "$work/empty" "$handles" "$work_name" "$few")")
    least_many=$(less "$least_many" "$(once "$work/empty" "$handles" "$work_name" "$many")")
  done
  awk -v few="$least_few" -v many="$least_many" -v n="$((many - few))" 'BEGIN { printf "%.2f", (many - few) / n }'
}

# A script whose goroutine makes an object, and repeats a statement so often. It makes as many turns for its one goroutine as the
# statement takes, and between them those of the worker and of the coordinator.
says() { printf 'arena 1024\ntype node pn\ngo a\nnew r0 node\nint r1 7\nstore r0 1 r1\nrepeat %d\n%s\nend\nend\n' "$2" "$1"; }

# The nanoseconds of a statement of `goheap replay`.
statement() {
  local few=10000 many=190000 least_few='' least_many=''
  says "$1" "$few" >"$work/few"
  says "$1" "$many" >"$work/many"
  for _ in $(seq "$runs"); do
    least_few=$(less "$least_few" "$(once "$work/few" "$program" replay)")
    least_many=$(less "$least_many" "$(once "$work/many" "$program" replay)")
  done
  awk -v few="$least_few" -v many="$least_many" -v n="$((many - few))" 'BEGIN { printf "%.2f", (many - few) / n }'
}

row() {
  awk -v name="$1" -v call="$2" -v plain="$3" -v statement="$4" 'BEGIN {
    printf "%-7s %10.1f %10s %10s %10.1f %12.1f\n", name, call,
      plain == "" ? "" : sprintf("%.1f", plain), plain == "" ? "" : sprintf("%.1f", call / plain), statement, statement / call }'
}
printf '%-7s %10s %10s %10s %10s %12s\n' '' 'a call' 'plain' 'call/plain' 'replay' 'replay/call'
row load "$(round load 1000000 21000000)" "$(round loads 1000000 101000000)" "$(statement 'load r2 r0 1')"
row store "$(round store 1000000 21000000)" "$(round stores 1000000 101000000)" "$(statement 'store r0 1 r1')"
row new "$(round new 1000 198000)" '' "$(statement 'new r0 node')"
