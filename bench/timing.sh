# What the scripts of this folder share: how often they run the program, a folder for their texts, the program, and the best time of
# a text. The program is run itself: goheap.sh looks at all sources first, which would be timed too.
here=$(cd "$(dirname "${BASH_SOURCE[0]}")/.." && pwd)
runs=${1:-5}
work=$(mktemp -d)
trap 'rm -rf "$work"' EXIT
# The proved one, or the one that GOHEAP names.
cd "$here"
if [ -z "${GOHEAP:-}" ]; then ./goheap.sh prove; fi
. tools/program.sh program
cd - >/dev/null

# The nanoseconds of the fastest replay of a text, whatever its status.
best() {
  local least=0
  for _ in $(seq "$runs"); do
    local begun took
    begun=$(date +%s%N)
    "$program" replay <"$1" >"$work/out" || true
    took=$(($(date +%s%N) - begun))
    if [ "$least" -eq 0 ] || [ "$took" -lt "$least" ]; then least=$took; fi
  done
  echo "$least"
}

# The milliseconds of processor time that ten runs of a program take together, under a budget and on a text.
ten_runs() {
  local TIMEFORMAT='%3U %3S'
  { time for _ in 1 2 3 4 5 6 7 8 9 10; do "$1" replay --budget "$2" <"$3" >"$work/out" 2>&1 || true; done; } 2>&1 |
    awk '{ print ($1 + $2) * 1000 }'
}

# The lesser of two numbers; the second where the first is empty.
less() { awk -v a="$1" -v b="$2" 'BEGIN { print (a == "" || b + 0 < a + 0) ? b : a }'; }
