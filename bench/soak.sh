#!/usr/bin/env bash
# Times `goheap soak` on one, two and four processors, beside `goheap replay` of the same script and beside a plain Go program that does
# the same statements (soak.go). Each is the wall time of a run with 200,000 statements, less that of a run with 20,000, over the
# difference; the least of five such runs. It prints a table: nanoseconds a statement, statements a second, and the time beside that
# of replay and beside Go's on as many processors.
#   bench/soak.sh      the program of this checkout
#   bench/soak.sh 9    the least of nine runs
# Go is what Debian's package golang installs (apt install golang); without it its rows are left out. GOHEAP names another program.
set -eu
. "$(dirname "$0")/timing.sh"
seed=7 few=20000 many=200000

# The nanoseconds that a command takes, which reads this text.
once() {
  local text=$1 begun
  shift
  begun=$(date +%s%N)
  "$@" <"$text" >"$work/out"
  echo $(($(date +%s%N) - begun))
}

# The nanoseconds of a statement: of a command that is given the size, or the text of that size.
statement() {
  local least_few='' least_many=''
  for _ in $(seq "$runs"); do
    least_few=$(less "$least_few" "$(once "$work/$few" "${@//SIZE/$few}")")
    least_many=$(less "$least_many" "$(once "$work/$many" "${@//SIZE/$many}")")
  done
  awk -v few="$least_few" -v many="$least_many" -v n="$((many - few))" 'BEGIN { printf "%.2f", (many - few) / n }'
}

# The first so many processors that this process may use.
processors() {
  taskset -cp $$ | sed 's/.*: *//' | tr ',' '\n' | awk -F- '{ for (i = $1; i <= ($2 == "" ? $1 : $2); i++) print i }' | head -n "$1" | paste -sd,
}

row() {
  awk -v name="$1" -v took="$2" -v replay="$3" -v go="$4" 'BEGIN {
    printf "%-10s %12.1f %12.0f %12s %12s\n", name, took, 1e9 / took, replay == "" ? "" : sprintf("%.2f", took / replay), go == "" ? "" : sprintf("%.2f", took / go) }'
}

for size in "$few" "$many"; do "$program" gen --seed "$seed" --size "$size" >"$work/$size"; done
go=''
if command -v go >/dev/null; then
  go=$work/go
  GOCACHE=$work/cache go build -o "$go" "$here/bench/soak.go"
else
  echo "Go is not installed here (apt install golang): its rows are left out"
fi
printf '%-10s %12s %12s %12s %12s\n' '' nanoseconds 'a second' 'to replay' 'to Go'
one=$(processors 1)
replayed=$(statement taskset -c "$one" "$program" replay)
row replay "$replayed" '' ''
for count in 1 2 4; do
  on=$(processors "$count")
  if [ "$(tr ',' '\n' <<<"$on" | wc -l)" -lt "$count" ]; then continue; fi
  in_go=''
  if [ -n "$go" ]; then
    in_go=$(statement env GOGC=50 taskset -c "$on" "$go" "$seed" SIZE)
    row "Go on $count" "$in_go" '' ''
  fi
  row "soak on $count" "$(statement taskset -c "$on" "$program" soak --seed "$seed" --size SIZE)" "$replayed" "$in_go"
done
