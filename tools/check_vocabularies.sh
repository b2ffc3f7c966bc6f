#!/usr/bin/env bash
# Each name that a crate's vocabulary (specs/Vocabulary.antt, proofs/Vocabulary.antt) passes on is taken from it by some file, and no file of that
# folder takes it from the module that the vocabulary has it from.
set -u
cd "$(dirname "$0")/.." || exit 1
export LC_ALL=C

# Lines "VOCABULARY<tab>MODULE<tab>NAME" of what is passed on, "VOCABULARY<tab>NAME" of what is taken, and "FOLDER<tab>MODULE<tab>NAME<tab>FILE".
work=$(mktemp -d) || exit 1
trap 'rm -rf "$work"' EXIT
find crates -name out -prune -o \( -path '*/specs/*.antt' -o -path '*/proofs/*.antt' -o -path '*/src/*.rt' \) -print | sort >"$work/files"
xargs awk -v work="$work" '
  function each(text, to, head, tail,   n, i, name, items) {
    n = split(text, items, /, */)
    for (i = 1; i <= n; i++) {
      name = items[i]; sub(/^.* as /, "", name); gsub(/[[:space:]]/, "", name)
      if (name != "") print head (head == "" ? "" : "\t") name (tail == "" ? "" : "\t" tail) > to
    }
  }
  /use Rattle\.[^{]*\.\{/ {
    line = $0; sub(/;[[:space:]]*$/, "", line)
    module = line; sub(/^.*use /, "", module); sub(/\.\{.*$/, "", module)
    items = line; sub(/^[^{]*\{/, "", items); sub(/\}[^}]*$/, "", items)
    folder = FILENAME; sub(/^crates\//, "", folder); sub(/\/.*$/, "", folder)
    part = FILENAME; sub(/^crates\/[^\/]*\//, "", part); sub(/\/.*$/, "", part)
    own = "Rattle." folder "." part ".Vocabulary"
    if (FILENAME ~ /^crates\/[^\/]*\/(specs|proofs)\/Vocabulary\.antt$/ && line ~ /pub use/) each(items, work "/passed", own "\t" module)
    else if (line !~ /^(unfoldable )?pub use/) {
      if (module ~ /\.Vocabulary$/) each(items, work "/taken", module)
      else if (FILENAME ~ /\.antt$/) each(items, work "/direct", own "\t" module, FILENAME)
    }
    if (module ~ /\.Vocabulary$/ && line ~ /pub use/) { split(items, given, /, */); for (i in given) { name = given[i]; sub(/ as .*$/, "", name); gsub(/[[:space:]]/, "", name); print module "\t" name > (work "/taken") } }
  }
' <"$work/files"
touch "$work/passed" "$work/taken" "$work/direct"
idle=$(cut -f 1,3 "$work/passed" | sort -u | comm -23 - <(sort -u "$work/taken"))
beside=$(awk -F'\t' 'NR == FNR { passed[$1 "\t" $2 "\t" $3] = 1; next } ($1 "\t" $2 "\t" $3) in passed { print $4 ": " $3 " of " $2 }' "$work/passed" "$work/direct" | sort)
[ -z "$idle" ] || printf 'check_vocabularies: passed on, and taken by no file:\n%s\n' "$idle"
[ -z "$beside" ] || printf 'check_vocabularies: taken beside the vocabulary that has it:\n%s\n' "$beside"
echo "vocabularies: $(sort -u "$work/passed" | wc -l) names, $([ -z "$idle$beside" ] && echo 'each taken' || echo 'NOT each taken so')"
[ -z "$idle$beside" ] && [ -s "$work/passed" ]
