#!/usr/bin/env bash
# Each line that docs/DEFINITIONS.md and docs/PROOF_ENGINEER.md quote in a block stands in a crate's src, specs or proofs, but for its indent and its
# comment. A block that is fenced as text is no quotation.
set -u
cd "$(dirname "$0")/.." || exit 1
export LC_ALL=C

bare() { sed -E 's/^[[:space:]]+//; s/[[:space:]]+--.*$//; s/[[:space:]]+$//' | grep -v '^$' | sort -u; }
quoted() { awk '/^```/ { inside = !inside; text = /text/; next } inside && !text' docs/DEFINITIONS.md docs/PROOF_ENGINEER.md | bare; }
sources() { find crates -name out -prune -o \( -path '*/specs/*.antt' -o -path '*/proofs/*.antt' -o -path '*/src/*.rt' \) -exec cat {} + | bare; }

looked=$(quoted | wc -l)
missing=$(comm -23 <(quoted) <(sources))
[ -z "$missing" ] || printf 'check_quotes: quoted, and in no source:\n%s\n' "$missing"
echo "quotes: $looked looked up, $([ -z "$missing" ] && echo 'all there' || echo 'NOT all there')"
[ -z "$missing" ] && [ "$looked" -gt 0 ]
