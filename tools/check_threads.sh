#!/usr/bin/env bash
# Runs scripts by threads, again and again, and compares with what is known of every run. GOHEAP names another program to run than goheap.sh's.
# A script of one goroutine writes the same whatever the threads do, but for its lines `cycle` and `credit`; so does one whose goroutines share
# nothing. What goroutines that race are answered has to be what some order of their statements gives, which is sought (tools/orders.awk). A
# script of `gen` has goroutines that share nothing, so that what is live at its end is the same in each run, and in a replay.
set -u
cd "$(dirname "$0")/.." || exit 1
work=$(mktemp -d)
trap 'rm -rf "$work"' EXIT
program=${GOHEAP-}
if [ -z "$program" ]; then
  ./goheap.sh replay <examples/first.heap >/dev/null 2>&1
  program=$(echo out/goheap-????????????????)
fi
times=20 passed=0 failed=0

# That the text of a run and its status are right: what it is of, and how it was compared.
note() {
  if [ "$1" -eq 0 ]; then
    passed=$((passed + 1))
  else
    failed=$((failed + 1))
    if [ "$failed" -le 20 ]; then echo "check_threads: $2"; fi
  fi
}

# One run. Its cycles are numbered from 1 on, what is live at its end is what the last one kept, and as much credit was earned as was spent
# and has lapsed.
run_once() {
  timeout 60 "$program" run <"$1" >"$work/run.out" 2>&1 || return 1
  awk '$1 == "cycle" { n++; marked = $4; if ($2 != n) bad = 1 }
    $1 == "credit" { if ($3 != $5 + $7) bad = 1; credit++ }
    $1 == "live" { if ($2 != marked) bad = 1; live++ }
    END { exit bad || n == 0 || credit != 1 || live != 1 }' "$work/run.out"
}

# What is the same in each run that gives the same answers: the lines but those of cycles and of the credit, and how many objects were made,
# each of which some cycle has freed or is live.
same_lines() {
  awk '$1 == "cycle" { freed += $6; next }
    $1 != "credit" { print }
    $1 == "live" { print freed + $2 " made" }' "$1"
}

# Runs of a script that write the same lines each time, those of this output.
same() {
  local script=$1 i
  same_lines "$2" >"$work/same"
  for ((i = 0; i < times; i++)); do
    run_once "$script" && cmp -s <(same_lines "$work/run.out") "$work/same"
    note $? "$program run < $script does not write the lines of $2"
  done
}

# Runs of a script of several goroutines whose lines differ: some order of its statements gives them.
in_some_order() {
  local script=$1 i
  for ((i = 0; i < times; i++)); do
    run_once "$script" && awk -f tools/orders.awk "$script" "$work/run.out" >"$work/order"
    note $? "no order of $script gives what $program run writes of it: $(head -n 1 "$work/order" 2>/dev/null)"
  done
}

stored() {
  local script
  for script in runs/*.heap examples/*.heap; do
    if [ -e "runs/$(basename "$script" .heap).each" ]; then in_some_order "$script"; else same "$script" "${script%.heap}.out"; fi
  done
}

# Two processors whose goroutines have a global of their own each, and nothing in common, beside one that asks for cycle after cycle. Many
# more cycles begin by themselves, since each is due after a few objects.
apart() {
  local g i
  {
    printf 'procs 3\nworkers 2\nglobals 2\ngogc 50\nminheap 0\narena 16\ntype node pn\n'
    for g in 0 1; do
      printf 'go g%s\nrepeat 1000\nnew r0 node\nint r1 5\nstore r0 1 r1\ngstore %s r0\ngload r2 %s\nload r3 r2 1\nnil r0\nnil r2\nend\nend\n' $g $g $g
    done
    printf 'go c\nrepeat 50\ngc\nend\nend\n'
  } >"$work/apart.heap"
  {
    for g in 0 1; do for i in {0..999}; do echo "g$g $((8 * i + 1)) ref g$g.$i"; echo "g$g $((8 * i + 5)) ref g$g.$i"; echo "g$g $((8 * i + 6)) int 5"; done; done
    for i in {1..50}; do echo "c $i swept"; done
    # the last cycle keeps an object of each
    printf 'cycle 1 marked 2 freed 1998\nlive 2 bytes 32\n'
  } >"$work/apart.out"
  same "$work/apart.heap" "$work/apart.out"
}

# Goroutines that race for longer.
races() {
  sed 's/^repeat 12$/repeat 40/' runs/racing.heap >"$work/races.heap"
  in_some_order "$work/races.heap"
}

# What orders.awk takes, and what it refuses: a load that finds what was overwritten before another found the later number, and a live object
# too few.
orders() {
  printf 'type t n\ngo a\nnew r0 t\nint r1 1\nstore r0 0 r1\ngstore 0 r0\nint r1 2\nstore r0 0 r1\nend\ngo b\ngload r0 0\nload r1 r0 0\nload r2 r0 0\nend\n' >"$work/order.heap"
  printf 'a 1 ref a.0\nb 1 ref a.0\nb 2 int 2\nb 3 int %s\ncycle 1 marked %s freed %s\nlive %s bytes 8\n' "$1" "$2" "$((1 - $2))" "$2" >"$work/order.out"
  awk -f tools/orders.awk "$work/order.heap" "$work/order.out" >/dev/null
  [ $? -eq "$3" ]
  note $? "orders.awk ends with another status than $3 where a load finds $1 behind 2, and $2 is live"
}

# The generated script of this seed and this size: so many statements, and one line `live`.
soak() {
  local seed=$1 size=$2 i
  { echo "statements $((size / 4 * 4))"; "$program" gen --seed "$seed" --size "$size" | "$program" replay --budget 1000000000 | tail -n 1; } >"$work/soak.want"
  for ((i = 0; i < 5; i++)); do
    timeout 60 "$program" soak --seed "$seed" --size "$size" </dev/null >"$work/soak.out" 2>&1 && cmp -s "$work/soak.out" "$work/soak.want"
    note $? "$program soak --seed $seed --size $size does not write $(paste -sd, "$work/soak.want")"
  done
}

# `run` refuses what `replay` refuses.
refused() {
  local status
  echo 'free r0' | "$program" run >"$work/refused.out" 2>&1
  status=$?
  [ "$status" -eq 3 ] && [ "$(cat "$work/refused.out")" = 'line 1: word' ]
  note $? 'a text that is no script is not refused by run'
}

orders 2 1 0
orders 1 1 1
orders 2 0 1
stored
apart
races
soak 7 5000
soak 0 4
soak 18446744073709551615 1003
refused
echo "threads: $passed passed, $failed failed"
[ "$failed" -eq 0 ] && [ "$passed" -gt 0 ]
