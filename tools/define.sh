#!/usr/bin/env bash
# Prints where a name of a contract is defined, with the comment above it and its text: a definition of specs/, or a type, a trait or a function of
# src/. A name may stand in several crates, each with a meaning of its own.
#   tools/define.sh NAME..            as tools/define.sh NoRoomFor every_list_of_actors_stands
#   tools/define.sh gh_marks NAME     that of one crate
set -u
cd "$(dirname "$0")/.." || exit 1
folder=crates
if [ $# -gt 1 ] && [ -d "crates/$1" ]; then folder=crates/$1; shift; fi
[ $# -gt 0 ] || { sed -n '2,5s/^# //p' "$0" >&2; exit 2; }
failed=0
for name in "$@"; do
  found=$(find "$folder" -name out -prune -o \( -path '*/specs/*.antt' -o -path '*/src/*.rt' \) -print | sort | xargs awk -v name="$name" '
    # a block is a definition up to the next empty line, with the comment lines right above it
    function show() { print "-- " FILENAME; printf "%s", above; on = 1 }
    FNR == 1 { above = ""; if (on) print ""; on = 0 }
    on && /^[ \t]*$/ { on = 0; print "" }
    on { print; next }
    {
      line = $0; sub(/^[ \t]+/, "", line)
      while (sub(/^(abbrev|unfoldable|pub(\(crate\))?|record|data|struct|enum|trait|final|const|fn|type) /, "", line)) defines = 1
      rest = line; sub(/^[A-Za-z_0-9]+/, "", rest); head = substr(line, 1, length(line) - length(rest))
      if (defines && head == name) { show(); print }
      defines = 0
    }
    /^[ \t]*(--|\/\/\/|\/\/|#\[)/ { above = above $0 "\n"; next }
    { above = "" }')
  if [ -n "$found" ]; then printf '%s\n' "$found"; else echo "define: no definition of $name in $folder" >&2; failed=1; fi
done
exit "$failed"
