#!/usr/bin/env bash
# Holds docs/SCRIPTS.md to the program and to the table of size classes: what each easily made mistake is answered, and the sizes of slots.
# Holds the table of docs/PACING.md of what gogc changes to the stored runs.
# GOHEAP names another program to run than goheap.sh's (tools/program.sh).
set -u
cd "$(dirname "$0")/.." || exit 1
. tools/program.sh
page=docs/SCRIPTS.md passed=0 failed=0

tried() {
  if [ "$2" = "$3" ]; then passed=$((passed + 1)); else
    echo "check_scripts: $1: the page says '$2', and it is '$3'"
    failed=$((failed + 1))
  fi
}

# What is written stands in line 1, before a goroutine, or in line 3, in one of two lines before it.
while IFS=$'\t' read -r written answer; do
  case $answer in
    'line 1:'*) text="$written\ngo a\nend\n" ;;
    *) text="type node pn\ngo a\n$written\nend\n" ;;
  esac
  case $written in go*) text="$written\nend\n" ;; esac
  # shellcheck disable=SC2059
  tried "$written" "$answer" "$(printf "$text" | "$program" replay 2>/dev/null)"
done < <(awk -F'|' '/^## Mistakes/ { on = 1 } /^All causes/ { on = 0 }
  on && $2 ~ /^ `/ && $3 ~ /^ `line [13]:/ { answer = $3; gsub(/^ `|` $/, "", answer); n = split($2, part, "`"); for (i = 2; i <= n; i += 2) print part[i] "\t" answer }' "$page")

sizes() { sed -n "/^const $1/,/];/p" crates/gh_class/src/class.rt | sed 's/^const[^=]*=//' | grep -o '[0-9][0-9]*'; }
of_code=$(paste -d' ' <(sizes SLOT_BYTES) <(sizes PAGES) | awk '{ print $1 / 8, int(8192 * $2 / $1), $2 }')
of_page=$(awk -F'|' '/^\| [0-9,]+ \| [0-9]+ \| [0-9] \|/ { gsub(/[ ,]/, ""); print $2, $3, $4; if ($6) print $6, $7, $8 }' "$page" | sort -n)
tried 'the sizes of slots' "$of_page" "$of_code"

# The lines of a column of that table.
column() { awk -F'|' -v k="$1" '/^\| `c(ycle|redit) / { line = $k; gsub(/[ `]*$|^[ `]*/, "", line); if (line != "") print line }' docs/PACING.md; }
tried 'gogc 50' "$(column 2)" "$(grep '^c[yr]' runs/pacing_50.out)"
tried 'gogc 100' "$(column 3)" "$(grep '^c[yr]' runs/pacing.out)"
tried 'gogc 400' "$(column 4)" "$(grep '^c[yr]' runs/pacing_400.out)"

echo "scripts: $passed passed, $failed failed"
[ "$failed" -eq 0 ]
