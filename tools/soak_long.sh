#!/usr/bin/env bash
# Outside the gate, since it proves nothing: runs `goheap soak` under random seeds and sizes for so many minutes (10, or the first
# word). The last line of each run has to be that of `goheap replay` on the text that `goheap gen` writes for it, and the line before
# it the number of statements. In turn each run is made alone, beside processes that keep all processors busy, and on one processor.
# It needs a proved program, which GOHEAP can name (tools/program.sh).
set -u
cd "$(dirname "$0")/.." || exit 1
if [ -z "${GOHEAP:-}" ]; then ./goheap.sh prove || exit 1; fi
. tools/program.sh program
minutes=${1:-10}
work=$(mktemp -d)
busy=()
trap 'kill "${busy[@]}" 2>/dev/null; rm -rf "$work"' EXIT

# Processes that keep all processors busy until they are stopped.
begin_load() {
  for _ in $(seq "$(nproc)"); do
    while :; do :; done &
    busy+=($!)
  done
}
end_load() {
  kill "${busy[@]}" 2>/dev/null
  wait "${busy[@]}" 2>/dev/null
  busy=()
}

# A run whose statements and last line are to be these; a word before it may say how it is run.
soak() {
  local how=$1
  shift
  "$@" "$program" soak --seed "$seed" --size "$size" >"$work/out" 2>"$work/err"
  local status=$?
  runs=$((runs + 1))
  if [ "$status" -ne 0 ] || [ -s "$work/err" ] || ! cmp -s "$work/out" "$work/wanted"; then
    echo "soak_long: --seed $seed --size $size, $how: status $status, wrote: $(cat "$work/out" "$work/err")"
    failed=$((failed + 1))
  fi
}

runs=0 failed=0
until=$((SECONDS + 60 * minutes))
while [ "$SECONDS" -lt "$until" ]; do
  seed=$(od -An -N8 -tu8 /dev/urandom | tr -d ' ')
  size=$((4 + $(od -An -N4 -tu4 /dev/urandom) % 20000))
  "$program" gen --seed "$seed" --size "$size" >"$work/text" || exit 1
  "$program" replay <"$work/text" >"$work/replayed" || exit 1
  { echo "statements $((size / 4 * 4))" && tail -n 1 "$work/replayed"; } >"$work/wanted"
  soak 'alone'
  soak 'on one processor' taskset -c "$(taskset -cp $$ | sed 's/.*: *//; s/[,-].*//')"
  begin_load
  soak 'beside other load'
  end_load
done
echo "soak_long: $runs runs in $minutes minutes, $failed of them failed"
[ "$failed" -eq 0 ]
