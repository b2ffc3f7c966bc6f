#!/usr/bin/env bash
# Compares crates.txt with the tables of docs/MAP.md: the same groups, and in each the same crates in the same order. Each crate of crates.txt
# stands behind those that it stands on. Crates of tests (gh_.._tests) stand where they may,
# each with a row in docs/MAP.md that says what it tests, and no crate stands on one.
set -u
cd "$(dirname "$0")/.." || exit 1

# Each crate as a line "group: crate". A comment of crates.txt is a group where docs/MAP.md has a heading of that name.
of_crates() {
  awk 'NR == FNR { if (sub(/^### /, "")) groups[$0]; next }
    /^#/ { name = $0; sub(/^# */, "", name); if (name in groups) group = name; next }
    { sub(/#.*/, "") }
    /^[a-z_]*_tests *:/ { next }
    /:/ { sub(/[ \t]*:.*/, ""); print group ": " $0 }' docs/MAP.md crates.txt
}
of_map() {
  awk -F'|' '/^## / { group = "" } /^### / { group = substr($0, 5) }
    /^\| `[a-z_]*_tests` / { next }
    group && /^\| `/ { gsub(/[` ]/, "", $2); print group ": " $2 }' docs/MAP.md
}
failed=0
if ! diff <(of_crates) <(of_map) >/dev/null; then
  echo 'check_map: crates.txt (<) and docs/MAP.md (>) differ:'
  diff <(of_crates) <(of_map)
  failed=1
fi
awk '{ sub(/#.*/, "") } /:/ { sub(/:/, " "); $0 = $0; all[$1]; seen[$1] = NR; for (i = 2; i <= NF; i++) uses[$1, $i] = NR }
  END { for (pair in uses) { split(pair, it, SUBSEP); if (it[2] in all && seen[it[2]] > uses[pair]) { print "check_map: " it[1] " stands before " it[2]; bad = 1 } } exit bad }' crates.txt || failed=1
awk '{ sub(/#.*/, "") } /:/ { sub(/:/, " "); $0 = $0; for (i = 2; i <= NF; i++) if ($i ~ /_tests$/) { print "check_map: " $1 " stands on " $i; bad = 1 } } END { exit bad }' crates.txt || failed=1
tests_of_crates() { sed -n 's/^\([a-z_]*_tests\) *:.*/\1/p' crates.txt | sort; }
tests_of_map() { sed -n 's/^| `\([a-z_]*_tests\)` .*/\1/p' docs/MAP.md | sort; }
if ! diff <(tests_of_crates) <(tests_of_map) >/dev/null; then
  echo 'check_map: the crates of tests in crates.txt (<) and docs/MAP.md (>) differ:'
  diff <(tests_of_crates) <(tests_of_map)
  failed=1
fi
for crate in crates/*/; do
  crate=$(basename "$crate")
  grep -q "^$crate *:" crates.txt || { echo "check_map: crates.txt lacks $crate"; failed=1; }
done
echo "map: $(of_map | wc -l) crates and $(tests_of_map | wc -l) of tests, $([ "$failed" -eq 0 ] && echo 'as crates.txt has them' || echo 'NOT as crates.txt has them')"
[ "$failed" -eq 0 ]
