#!/usr/bin/env bash
# What tools/steps.sh shows of a run, its turns and the arena at a cycle's end, is what docs/SCRIPTS.md has. Each line of a file
# runs/NAME.steps stands in what it shows of runs/NAME.heap, by the list of that script's second line: at which step of which actor
# something happens. The drawings of runs in
# docs/pictures are what `goheap.sh draw` makes of scripts of examples/, by their lists, and pacing.svg there what `draw --pacing` makes of
# runs/pacing.heap. What docs/SCRIPTS.md has of a run that is broken off is what goheap.sh says of it. With a word --write the drawings are written anew.
# GOHEAP_STEPS names another program to run than goheap.sh's.
set -u
cd "$(dirname "$0")/.." || exit 1
passed=0 failed=0

# The turns of a script by a list, where there is one.
steps() {
  if [ -n "${GOHEAP_STEPS-}" ]; then "$GOHEAP_STEPS" ${2:+"$2"} <"$1"; else ./goheap.sh steps ${2:+--list "$2"} <"$1" 2>/dev/null; fi
}
# What paces its cycles.
pacing() {
  if [ -n "${GOHEAP_STEPS-}" ]; then "$GOHEAP_STEPS" --pacing ${2:+"$2"} <"$1"; else ./goheap.sh steps --pacing ${2:+--list "$2"} <"$1" 2>/dev/null; fi
}
# The list of a script's second line.
list_of() { sed -n "2s/^# replay .*--list[ =]\([^ ]*\).*/\1/p" "$1"; }

# What docs/SCRIPTS.md has behind the command that begins so is what stands in the file.
is_told() {
  if cmp -s "$2" <(awk -v begin="$ $1" 'index($0, begin) == 1 { on = 1; next } /^```/ { on = 0 } on' docs/SCRIPTS.md); then
    passed=$((passed + 1))
  else
    echo "check_steps: docs/SCRIPTS.md does not have what $1 shows"
    failed=$((failed + 1))
  fi
}

floating=examples/floating.heap
is_told 'tools/steps.sh examples/first.heap' <(steps examples/first.heap '0@1,2*3')
is_told "tools/steps.sh $floating" <(steps "$floating" "$(list_of "$floating")" | grep -E 'acts a 2|cycle [12] is|page 0:' | head -n 9)

# What each actor is said to wait for when a run is broken off.
waits() {
  echo 'turns 300'
  sed -n "s/^  say 'the run is not over/goheap.sh: the run is not over/p" tools/hints.sh | sed "s/'$//"
  (
    # shellcheck source=tools/steps_program.sh
    . tools/steps_program.sh
    "$steps" --waits --budget 300 <examples/first.heap
  ) |
    awk -f tools/waits.awk examples/first.heap -
}
is_told './goheap.sh replay --budget 300' <(waits)

# What is shown, without the numbers of turns, and each thing that happens in a line of its own.
happens() {
  awk '$1 == "turns" { print; next }
    { head = $2 " " $3 " " $4 " " $5; text = $0; sub(/^[^:]*: */, "", text) }
    text ~ / marks [0-9]+$/ { marks = text; sub(/.* marks /, " marks ", marks); print head marks; sub(/ marks [0-9]+$/, "", text) }
    text ~ /^acts [^ ]+ [0-9]+ / { split(text, part, " "); print head " acts " part[2] " " part[3]; sub(/^acts [^ ]+ [0-9]+ /, "", text) }
    { print head " " text }'
}

for wanted in runs/*.steps; do
  script=${wanted%.steps}.heap
  missing=$(grep -Fxv -f <(steps "$script" "$(list_of "$script")" | happens) "$wanted")
  if [ -z "$missing" ]; then
    passed=$((passed + 1))
  else
    echo "check_steps: $script does not show of $wanted: $missing"
    failed=$((failed + 1))
  fi
done

# The drawing in docs/pictures of this name is that on standard input, which the command makes of the script.
is_drawn() {
  local drawing=docs/pictures/$1 drawn
  drawn=$(cat)
  if [ "${write-}" = --write ]; then printf '%s\n' "$drawn" >"$drawing"; fi
  if printf '%s\n' "$drawn" | cmp -s - "$drawing"; then
    passed=$((passed + 1))
  else
    echo "check_steps: $drawing is not what ./goheap.sh $2 makes of $3"
    failed=$((failed + 1))
  fi
}

write=${1-}
for drawing in docs/pictures/run_*.svg; do
  [ -e "$drawing" ] || continue
  name=$(basename "$drawing" .svg)
  script=examples/${name#run_}.heap
  is_drawn "$name.svg" draw "$script" < <(steps "$script" "$(list_of "$script")" | awk -f tools/draw.awk "$script" -)
done
script=runs/pacing.heap
is_drawn pacing.svg 'draw --pacing' "$script" < <(pacing "$script" "$(list_of "$script")" | awk -f tools/pacing.awk "$script" -)
echo "steps and drawings: $passed passed, $failed failed"
[ "$failed" -eq 0 ]
