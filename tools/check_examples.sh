#!/usr/bin/env bash
# Runs the program on each script of examples/, each of which opens with a line of what it shows, and compares what it writes with
# the file beside it. A second line `# replay --list ..` has the words of the command. GOHEAP names another program to run than goheap.sh's (tools/program.sh).
set -u
cd "$(dirname "$0")/.." || exit 1
. tools/program.sh
passed=0
failed=0
for script in examples/*.heap; do
  read -r -a words < <(sed -n '2s/^# \(replay .*\)$/\1/p' "$script")
  if ! head -n 1 "$script" | grep -q '^# ..*\.$'; then
    echo "check_examples: $script does not open with a line of what it shows"
    failed=$((failed + 1))
  elif "$program" "${words[@]:-replay}" < "$script" 2>/dev/null | cmp -s - "${script%.heap}.out"; then
    passed=$((passed + 1))
  else
    echo "check_examples: $script does not write ${script%.heap}.out"
    failed=$((failed + 1))
  fi
done
echo "examples: $passed passed, $failed failed"
[ "$failed" -eq 0 ]
