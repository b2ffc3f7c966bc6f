#!/usr/bin/env bash
# Outside the gate, since it proves nothing: short scripts that look random, by orders of steps that are drawn to hurt, each beside the heap
# that never frees. Each run has to end with status 0, its cycles numbered from 1 on, as much credit earned as was spent and has lapsed, what is
# live at the end as many objects as the last cycle marked, and `agrees` as its last line; or with status 8 and one line `turns`. It stops at none, and tells how many did something else.
#   tools/hostile.sh [SEED [SCRIPTS]]     the seed, 1 if none is said, and how many scripts, 10 if none
# GOHEAP names the program (tools/program.sh): take a proved one, since the one without proofs is hundreds of times slower.
set -u
cd "$(dirname "$0")/.." || exit 1
seed=${1:-1} scripts=${2:-10}
case $seed$scripts in *[!0-9]*) echo "hostile: a seed and a number of scripts are decimal digits" >&2; exit 2 ;; esac
. tools/program.sh program
work=$(mktemp -d)
trap 'rm -rf "$work"' EXIT
longest=400        # an actor stands still behind each of so many of its steps
turns=4000         # for so many turns
budget=1000000

# The next number below $1, in `drawn`: Knuth's multiplier, by the upper bits.
state=$seed
draw() {
  state=$((state * 6364136223846793005 + 1442695040888963407))
  drawn=$(((state >> 33 & 0x3fffffff) % $1))
}

# One statement that looks random: goroutines meet in two globals, and objects refer to each other.
statement() {
  local a b k
  draw 6; a=$drawn
  draw 6; b=$drawn
  draw 3; k=$drawn
  draw 20
  case $drawn in
    [0-4]) echo "new r$a fan" ;;
    5) echo "new r$a leaf" ;;
    [6-8]) echo "store r$a $k r$b" ;;
    9 | 1[01]) echo "load r$a r$b $k" ;;
    1[23]) echo "gstore $((k % 2)) r$a" ;;
    1[45]) echo "gload r$a $((k % 2))" ;;
    16) echo "move r$a r$b" ;;
    17) echo "nil r$a" ;;
    18) echo "int r$a 7" ;;
    19) echo gc ;;
  esac
}

# A script of a few goroutines; `actors` is how many actors it has.
script() {
  local procs workers g n
  draw 3; procs=$((drawn + 1))
  draw 2; workers=$((drawn + 1))
  actors=$((procs + workers + 1))
  {
    printf 'procs %s\nworkers %s\narena 16\nglobals 2\ngogc 0\ntype fan p*3\ntype leaf n*2\n' "$procs" "$workers"
    for g in a b c; do
      echo "go $g"
      draw 8
      for n in $(seq 0 "$((drawn + 4))"); do statement; done
      printf 'gc\nend\n'
    done
  } >"$work/script"
}

run() {
  printf '\001%s %s\n' "$number" "$1"
  "$program" replay --check --budget "$budget" --list "$1" ${2:+--seed "$2"} <"$work/script" 2>&1
  printf '\002%s\n' "$?"
}

# One actor stands still behind each of its first steps: in a statement, under the lock, in a barrier, in a scan, within a stop.
one_stands_still() {
  local actor k
  for actor in $(seq 0 "$((actors - 1))"); do
    for k in $(seq "$longest"); do run "$actor*$k,$actor!$turns"; done
  done
}

# Two stand still behind some steps, while the others take a few each in turn.
two_stand_still() {
  local times one other list actor round
  for times in $(seq 100); do
    draw "$actors"; one=$drawn
    draw "$((actors - 1))"; other=$(((one + 1 + drawn) % actors))
    draw 200; list="$one*$((drawn + 1))"
    draw 200; list="$list,$other*$((drawn + 1))"
    for round in $(seq 30); do
      for actor in $(seq 0 "$((actors - 1))"); do
        if [ "$actor" -ne "$one" ] && [ "$actor" -ne "$other" ]; then draw 40; list="$list,$actor*$((drawn + 1))"; fi
      done
    done
    run "$list"
  done
}

# One goes on alone, whatever it waits for, behind some steps of all.
one_goes_on() {
  local times actor
  for times in $(seq 20); do
    for actor in $(seq 0 "$((actors - 1))"); do
      draw 1500
      run "255!$((drawn + 1)),$actor*20000"
    done
  done
}

# Thousands of items, each of which lets another actor stand still for a few turns, with a seed.
many_items() {
  local times item list
  for times in $(seq 10); do
    list="255!1"
    for item in $(seq 2000); do
      draw "$actors"; list="$list,$drawn"
      draw 30; list="$list!$((drawn + 1))"
    done
    draw 1000000
    run "$list" "$drawn"
  done
}

all() {
  for number in $(seq "$scripts"); do
    script
    one_stands_still
    two_stand_still
    one_goes_on
    many_items
  done
}

all | awk -v seed="$seed" -v scripts="$scripts" '
  function failed(why) { bad++; if (bad <= 20) print "hostile: script " what ": " why }
  function ended(status) {
    runs++
    if (status == 8) { if (lines == 1 && last ~ /^turns [0-9]+$/) cut++; else failed("status 8, and wrote: " last); return }
    if (status != 0) { failed("status " status ", and wrote: " last); return }
    if (wrong != "") { failed(wrong); return }
    if (last != "agrees") { failed("the last line is: " last); return }
    if (credit != 1) { failed(credit " lines of credit"); return }
    if (live == "" || live != marked) { failed("live " live ", and the last cycle marked " marked); return }
    whole++
    if (cycles > most) most = cycles
    all_cycles += cycles
  }
  /^\001/ { what = substr($0, 2); if (length(what) > 90) what = substr(what, 1, 90) ".."; lines = cycles = credit = 0; last = live = marked = wrong = ""; next }
  /^\002/ { ended(substr($0, 2)); next }
  { lines++; last = $0 }
  $1 == "cycle" && NF == 6 { cycles++; marked = $4; if ($2 != cycles) wrong = "cycle " $2 " stands as number " cycles }
  $1 == "credit" && NF == 7 { credit++; if ($3 + 0 != $5 + $7) wrong = "credit earned " $3 ", spent " $5 ", lapsed " $7 }
  $1 == "live" && NF == 4 { live = $2 }
  END {
    printf "hostile: seed %s: %d runs of %d scripts: %d whole, with %d cycles, at most %d in one; %d out of turns; %d did something else\n", seed, runs, scripts, whole, all_cycles, most, cut, bad
    exit bad > 0 || runs == 0
  }'
