#!/usr/bin/env bash
# What `./goheap.sh cycles` tells of the stored runs is what `replay` stored of them: their cycles with the objects kept and freed, and their credit, each
# by the sum of all cycles; and its numbers agree with each other. What docs/PAUSES.md quotes of it is what it shows, and each kind of line of a trace stands in
# docs/TRACE.md. GOHEAP_STEPS names another program to run than goheap.sh's.
set -u
cd "$(dirname "$0")/.." || exit 1
export LC_ALL=C
work=$(mktemp -d) || exit 1
trap 'rm -rf "$work"' EXIT
# shellcheck source=tools/steps_program.sh
. tools/steps_program.sh
# shellcheck source=tools/words.sh
. tools/words.sh
passed=0 failed=0
tried() {
  if [ "$2" = "$3" ]; then passed=$((passed + 1)); else
    echo "check_cycles: $1: '$2', and it is '$3'"
    failed=$((failed + 1))
  fi
}

# The lines of a script by words.
cycles() {
  local script=$1
  shift
  as_steps "$@"
  "$steps" --trace "${stepped[@]}" <"$script" >"$work/trace"
  awk -f tools/cycles.awk - "$work/trace" </dev/null
}
words_of() { sed -n '2s/^# replay \(.*\)$/\1/p' "$1"; }

for script in examples/*.heap runs/*.heap; do
  stored=${script%.heap}.out
  # The longest ones are left out, since nothing is new in them.
  case $script in */longest.heap | */many_grey.heap | */second_span.heap) continue ;; esac
  [ -e "$stored" ] || continue
  # shellcheck disable=SC2046
  cycles "$script" $(words_of "$script") >"$work/cycles"
  tried "$script, its cycles" "$(grep '^cycle ' "$stored")" "$(sed -n 's/^cycle \([0-9]*\) @[0-9]*: \(marked [0-9]* freed [0-9]*\);.*/cycle \1 \2/p' "$work/cycles")"
  tried "$script, its credit" "$(grep '^credit ' "$stored")" "$(sed -n 's/^all .*credit \([0-9]*\) earned, \([0-9]*\) spent, \([0-9]*\) lapsed$/credit earned \1 spent \2 lapsed \3/p' "$work/cycles")"
  # The last cycle keeps what is live; the workers' words are their credit; no stop is shorter than the time for which the world has stopped by it.
  tried "$script, its numbers" '' "$(awk '
    /^cycle/ { split($0, part, "; "); split(part[5], words, " "); split(part[7], credit, " "); split(part[4], stop, "[ ,]+")
      if (words[2] != credit[2]) print $2 ": " words[2] " words by workers, and a credit of " credit[2]
      if (credit[2] != credit[4] + credit[6]) print $2 ": credit"
      if (stop[7] > stop[5] || stop[9] > stop[5]) print $2 ": stops" }' "$work/cycles")"
done

# Each kind of line that a trace of any of these has is one that docs/TRACE.md has.
for script in examples/assist_scans.heap runs/pacing.heap runs/sweep_search.heap examples/full.heap; do
  # shellcheck disable=SC2046
  as_steps $(words_of "$script")
  "$steps" --trace "${stepped[@]}" <"$script"
done | awk '$1 ~ /^[0-9]+$/ { print $3 }' | sort -u >"$work/kinds"
tried 'kinds of lines that docs/TRACE.md lacks' '' "$(grep -o '^| `[a-z]*' docs/TRACE.md | sed 's/^| `//' | sort -u | comm -13 - "$work/kinds" | paste -sd' ')"
tried 'the end of a trace in docs/TRACE.md' "$(awk '/^turns / { on = 1 } /^```/ { on = 0 } on' docs/TRACE.md)" "$("$steps" --trace <examples/first.heap | tail -n 3)"
tried 'its begin' "$(awk '/^trace 1/ { on = 1 } /^```/ { on = 0 } on' docs/TRACE.md)" "$("$steps" --trace <examples/first.heap | head -n 2)"
tried 'the end of one that is broken off' "$(awk '/^broken off/ { on = 1 } /^```/ { on = 0 } on' docs/TRACE.md)" "$("$steps" --waits --budget 300 <examples/first.heap)"

# What docs/PAUSES.md quotes after `$ ./goheap.sh cycles < FILE` is what that shows.
while read -r script; do
  quoted=$(awk -v begin="\$ ./goheap.sh cycles < $script" '$0 == begin { on = 1; next } /^```/ { on = 0 } on' docs/PAUSES.md)
  # shellcheck disable=SC2046
  cycles "$script" $(words_of "$script") >"$work/cycles"
  tried "docs/PAUSES.md, what it quotes of $script" '' "$(grep -Fvx -f "$work/cycles" <<<"$quoted")"
done < <(sed -n 's/^\$ \.\/goheap\.sh cycles < //p' docs/PAUSES.md)
# Its table of the arena: the turns of the check by the pages.
while read -r pages turns; do
  sed "s/^arena .*/arena $pages/" examples/first.heap >"$work/arena.heap"
  tried "docs/PAUSES.md, the check with $pages pages" "$turns" "$(cycles "$work/arena.heap" | sed -n '1s/.* mark, \([0-9]*\) check.*/\1/p')"
done < <(awk -F'|' '/^\| [0-9,]+ \| [0-9,]+ \| [0-9,]+ \|$/ { gsub(/[ ,]/, ""); print $2, $4 }' docs/PAUSES.md)

# And the stops of the chain by the pages.
while read -r pages stops; do
  sed "s/^arena .*/arena $pages/" runs/stops_chain.heap >"$work/arena.heap"
  tried "docs/PAUSES.md, the stops with $pages pages" "$stops" "$(cycles "$work/arena.heap" | sed -n '1s/.*; stops \([0-9]*\),.*/\1/p')"
done < <(awk -F'|' '/^\| [0-9,]+ \| [0-9,]+ \|$/ { gsub(/[ ,]/, ""); print $2, $3 }' docs/PAUSES.md)

echo "cycles: $passed passed, $failed failed"
[ "$failed" -eq 0 ] && [ "$passed" -gt 0 ]
