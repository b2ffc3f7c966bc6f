#!/usr/bin/env bash
# Times `goheap replay` on texts of about 4 MiB: comments, blanks, one line, 190,000 statements, and 64 types of 65,000 fields. It
# prints bytes a second, the best of five runs (bench/parse.sh 9: of nine), and the time of an empty text.
set -eu
. "$(dirname "$0")/timing.sh"

: >"$work/empty"
"$program" replay <"$work/empty" >"$work/out" || true
echo "no byte: $(($(best "$work/empty") / 1000)) microseconds"
most=4194304
# lines of comments; lines of blanks; one line; statements that are spread by blanks; shapes
awk 'BEGIN { while (1) print "# a line that says nothing" }' | head -c "$most" >"$work/comments"
awk 'BEGIN { while (1) print " \t  \t   " }' | head -c "$most" >"$work/blanks"
head -c "$most" /dev/zero | tr '\0' '#' >"$work/line"
{ printf 'go a\n'; awk 'BEGIN { for (i = 0; i < 190000; i++) print "  store   r0  0   r1" } '; printf 'end\n'; } >"$work/statements"
{ for i in $(seq 0 63); do printf 'type t%d ' "$i"; head -c 65000 /dev/zero | tr '\0' 'p'; printf '\n'; done; printf 'go a\nend\n'; } >"$work/shapes"
for text in comments blanks line statements shapes; do
  bytes=$(stat -c %s "$work/$text")
  took=$(best "$work/$text")
  awk -v text="$text" -v n="$bytes" -v t="$took" 'BEGIN { printf "%s: %d bytes in %.3f seconds, %.0f bytes a second\n", text, n, t / 1e9, n * 1e9 / t }'
done
