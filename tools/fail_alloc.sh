#!/usr/bin/env bash
# Outside the gate, since it proves nothing: refuses memory to the run of examples/first.heap. Each of its allocations is refused in
# turn, alone and then together with all behind it. Each of these runs has to end with status 6 and nothing written, or with the whole
# output, where it can do without; none with anything else. It needs a proved program, which GOHEAP can name (tools/program.sh): in the one
# without proofs allocations are the sanitizer's own. With a word --check the heap that never frees runs beside. With a first word `run`
# the script is run by threads, and status 7 is right too, since a thread whose own memory is refused does not start; then each start of a
# thread is refused in turn, with status 7 and nothing written.
set -u
cd "$(dirname "$0")/.." || exit 1
if [ -z "${GOHEAP:-}" ]; then ./goheap.sh prove || exit 1; fi
. tools/program.sh program
work=$(mktemp -d)
trap 'rm -rf "$work"' EXIT
compiler=$(command -v cc || echo "$(dirname "$(readlink -f "$(command -v rt)")")/../toolchain/bin/clang")
"$compiler" -O1 -fno-builtin -shared -fPIC -nostdlib -o "$work/fail_alloc.so" tools/fail_alloc.c || exit 1

# Runs the program with these variables; the allocations are counted in `asked`.
run() {
  env "$@" LD_PRELOAD="$work/fail_alloc.so" "$program" "${words[@]}" <examples/first.heap >"$work/out" 2>"$work/err" 9>"$work/told" 8>"$work/begun"
  status=$?
  asked=$(wc -c <"$work/told")
  begun=$(wc -c <"$work/begun")
}

if [ "${1-}" != run ]; then set -- replay "$@"; fi
words=("$@")
refusals=6
# (a thread whose own memory is refused does not start)
if [ "$1" = run ]; then refusals='[67]'; fi
run FAIL_ALLOC=0
all=$asked
if [ "$status" -ne 0 ] || [ "$all" -eq 0 ]; then
  echo "fail_alloc: with all memory it ends with status $status, after $all allocations"
  exit 1
fi
cp "$work/out" "$work/whole"
gave_up=0 did_without=0 failed=0
for from in '' FAIL_FROM=yes; do
  for n in $(seq "$all"); do
    run "FAIL_ALLOC=$n" $from
    if [[ "$status" =~ ^$refusals$ ]] && [ ! -s "$work/out" ] && [ ! -s "$work/err" ]; then
      gave_up=$((gave_up + 1))
    elif [ "$status" -eq 0 ] && cmp -s "$work/out" "$work/whole" && [ ! -s "$work/err" ]; then
      did_without=$((did_without + 1))
    else
      echo "fail_alloc: allocation $n of $all refused${from:+, and all behind it}: status $status, wrote: $(cat "$work/out" "$work/err")"
      failed=$((failed + 1))
    fi
  done
done
echo "fail_alloc: $all allocations refused one by one and from each on: $gave_up runs gave up with nothing written, $did_without did without, $failed did something else"
if [ "${words[0]}" = run ]; then
  run FAIL_THREAD=0
  threads=$begun
  for n in $(seq "$threads"); do
    run "FAIL_THREAD=$n"
    if [ "$status" -ne 7 ] || [ -s "$work/out" ] || [ -s "$work/err" ]; then
      echo "fail_alloc: start $n of $threads threads refused: status $status, wrote: $(cat "$work/out" "$work/err")"
      failed=$((failed + 1))
    fi
  done
  echo "fail_alloc: each start of $threads threads refused"
fi
[ "$failed" -eq 0 ]
