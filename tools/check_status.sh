#!/usr/bin/env bash
# Runs the program from outside, once for each status but those of a run that ends well and of want of memory (tools/fail_alloc.sh),
# and compares the status, what is written to standard output, and that nothing is written to standard error.
set -u
cd "$(dirname "$0")/.." || exit 1
# The program itself, since goheap.sh answers words that it does not know. GOHEAP names another one.
. tools/program.sh program
work=$(mktemp -d)
trap 'rm -rf "$work"' EXIT
passed=0
failed=0

# The status and the line that are wanted, standard input, and the words behind the program's name.
check() {
  local status=$1 line=$2 input=$3
  shift 3
  "$program" "$@" <"$input" >"$work/out" 2>"$work/err"
  compare "$?" "$status" "$line" "$*"
}

compare() {
  local got=$1 status=$2 line=$3 words=$4
  if [ "$got" -eq "$status" ] && [ "$(cat "$work/out")" = "$line" ] && [ ! -s "$work/err" ]; then
    passed=$((passed + 1))
  else
    printf 'check_status: %q ends with %s, and not with %s and %q\n' "$words" "$got" "$status" "$line"
    failed=$((failed + 1))
  fi
}

first=examples/first.heap
printf 'go a\n' >"$work/open"
# a word that is not UTF-8, wherever it stands
check 2 'words refused' "$first" replay $'\xff'
check 2 'words refused' "$first" $'repl\xe9y'
check 2 'words refused' "$first" replay $'--budget=\xc3'
check 2 'words refused' "$first"
check 3 'line 1: nesting' "$work/open" replay
# a folder cannot be read
check 4 '' / replay
check 8 'turns 1' "$first" replay --budget 1
# a device that takes nothing
"$program" replay <"$first" >/dev/full 2>"$work/err"
got=$?
: >"$work/out"
compare "$got" 5 '' 'replay to a full device'
echo "statuses: $passed passed, $failed failed"
[ "$failed" -eq 0 ]
