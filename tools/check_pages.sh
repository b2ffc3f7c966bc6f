#!/usr/bin/env bash
# Pages can be read: README.md has at most 1,500 words, no cell of a table has more than 40, and each name in backquotes, if it is spelled as a name
# of ours, stands in a crate, a script or a tool, or is a name of Go that docs/GO.md has.
set -u
cd "$(dirname "$0")/.." || exit 1
export LC_ALL=C
failed=0
words=$(wc -w <README.md)
[ "$words" -le 1500 ] || { echo "check_pages: README.md has $words words"; failed=1; }
long=$(awk -F'|' 'FNR == 1 { inside = 0 } /^ *```/ { inside = !inside } inside || !/^\|/ { next }
  { for (i = 2; i < NF; i++) if (split($i, words, " ") > 40) print FILENAME ":" FNR ": " substr($i, 1, 60) }' README.md docs/*.md docs/*/*.md bench/*.md)
[ -z "$long" ] || { printf 'check_pages: cells of more than 40 words:\n%s\n' "$long"; failed=1; }

work=$(mktemp -d) || exit 1
trap 'rm -rf "$work"' EXIT

# Names with an underscore, a capital inside or a path, and files of src/, specs/, proofs/, tools/, bench/, examples/ and runs/.
named() {
  awk 'FNR == 1 { inside = 0 } /^ *```/ { inside = !inside; next } inside { next }
    { line = $0; while (match(line, /`[^`]+`/)) { print FILENAME "\t" substr(line, RSTART + 1, RLENGTH - 2); line = substr(line, RSTART + RLENGTH) } }' \
    README.md docs/*.md docs/decisions/*.md bench/*.md |
    awk -F'\t' '{ name = $2; sub(/\(.*$/, "", name)
      if (name !~ /^O_/ && name ~ /^[A-Za-z_][A-Za-z_0-9]*(::[A-Za-z_][A-Za-z_0-9]*)*$/ && (name ~ /_/ || name ~ /::/ || name ~ /^[A-Z][a-z]+[A-Z]/)) {
        n = split(name, parts, "::"); for (i = 1; i <= n; i++) print $1 "\t" parts[i] } }' | sort -u
}
{
  find crates -name out -prune -o \( -name '*.antt' -o -name '*.rt' \) -exec cat {} + | grep -oE '[A-Za-z_][A-Za-z_0-9]*'
  cat tools/* bench/*.sh goheap.sh crates.txt | grep -oE '[A-Za-z_][A-Za-z_0-9]*'
  find crates tools -not -path '*/out/*' -printf '%f\n' | sed 's/\..*//'
  find crates -maxdepth 1 -printf '%f\n'
  awk -F'|' '/^\|/ { print $2 }' docs/GO.md | grep -oE '[A-Za-z_][A-Za-z_0-9]*'
} | sort -u >"$work/known"
named >"$work/named"
missing=$(awk -F'\t' 'NR == FNR { known[$1]; next } !($2 in known) { print $1 ": " $2 }' "$work/known" "$work/named")
[ -z "$missing" ] || { printf 'check_pages: named by a page, and there is none:\n%s\n' "$missing"; failed=1; }
echo "pages: README.md has $words words, $(wc -l <"$work/named") names looked up, $([ "$failed" -eq 0 ] && echo 'all there, and no cell too long' || echo 'and NOT all as it is to be')"
[ "$failed" -eq 0 ] && [ -s "$work/named" ]
