#!/usr/bin/env bash
# Compares the pictures with the code, where that can be compared: the rows of words, their sizes, the control words and the bits of packed
# words in docs/pictures/words.svg with gh_base, and the functions of docs/pictures/statement.svg with the crates that it names.
set -u
cd "$(dirname "$0")/.." || exit 1
layout=crates/gh_base/src/layout.rt pack=crates/gh_base/src/pack.rt words=docs/pictures/words.svg
failed=0 compared=0

same() {
  compared=$((compared + 1))
  if [ "$2" != "$3" ] || [ -z "$2" ]; then
    echo "check_pictures: $1: the code (<) and the picture (>) differ:"
    diff <(echo "$2") <(echo "$3")
    failed=1
  fi
}

# The texts of a class in a picture, one a line.
texts() { grep -o "class=\"[^\"]*\b$1\b[^\"]*\">[^<]*<" "$2" | sed 's/.*">//; s/<$//'; }

# A row begins where the row before it ends: the function of a row tells the size of the row before. The first two stand in that of alloc.
rows_of_code() {
  awk '/^    pub\(crate\) fn [a-z]*_row/ { name = $3; sub(/_row.*/, "", name) }
    /^    pub fn words/ { name = "end" }
    name && /^        self\.[a-z]*_row\(\) \+|^        15 \+/ {
      before = $1; sub(/self\./, "", before); sub(/_row.*/, "", before); size = $0; sub(/^[^+]*\+ /, "", size)
      if (before == "15") { at[1] = "control 15"; at[2] = "page " size } else if (name == "end") last = before " " size; else at[++n + 2] = before " " size
      name = "" }
    END { for (i = 1; i <= n + 2; i++) print at[i]; print last }' "$layout" |
    sed 's/self\.//g; s/buffers()/B/; s/pages/P/; s/globals/G/; s/ \* / /; s/^page P/page P/'
}
same 'rows of words' "$(rows_of_code)" "$(paste -d' ' <(texts row "$words") <(texts size "$words"))"
same 'control words' "$(sed -n 's/^ *Cell::\([A-Z][a-z]*\) => \([0-9]*\),$/\2 \1/p' "$layout")" "$(texts control "$words" | awk '{ print NR - 1, $0 }')"

# The numbers of a packed word with the lowest bit of each, as `pack` writes them.
parts_of_code() {
  case $1 in
    head | body) sed -n "/PageWord::${1^}($1) => {/,/}/p" "$pack" | sed -n "s/^ *\([12]\) + (u64::from(class_number($1\.class)) << 2)/kind \1 0\nclass 2/p; s/^ *+ (u64::from($1\.\([a-z]*\)) << \([0-9]*\))/\1 \2/p; s/^ *+ ($1\.\([a-z]*\) << \([0-9]*\))/\1 \2/p" ;;
    birth) grep -q '((u64::from(self.g) + 1) << 32) + u64::from(self.k)' "$pack" && printf 'k 0\ng + 1 32\n' ;;
    buffer) sed -n 's/^ *u64::from(self\.count) + (self\.holder << \([0-9]*\))/count 0\nholder \1/p' "$pack" ;;
    phase) sed -n 's/^ *(self\.stops << \([0-9]*\)) + kind/kind 0\nstops \1/p' "$pack" ;;
    tally) sed -n 's/^ *u64::from(self\.marked) + (u64::from(self\.freed) << \([0-9]*\))/marked 0\nfreed \1/p' "$pack" ;;
  esac
}
for word in head body birth buffer phase tally; do
  same "bits of $word" "$(parts_of_code "$word")" "$(texts "mid $word" "$words" | paste -d' ' - - | sed 's/-[0-9]*$//')"
done

# The functions of a box stand in one of its crates.
while read -r names crates; do
  for name in ${names//,/ }; do
    compared=$((compared + 1))
    # shellcheck disable=SC2046
    if ! grep -rqE "\bfn ${name##*::}\b" $(printf 'crates/%s/src ' ${crates//,/ }); then
      echo "check_pictures: docs/pictures/statement.svg names $name of $crates, and there is none"
      failed=1
    fi
  done
done < <(grep -o 'code bold">[^<]*<\|small right">[^<]*<\|right small">[^<]*<' docs/pictures/statement.svg | sed 's/.*">//; s/<$//; s/, /,/g' | grep -v '^World::step$' | paste -d' ' - -)

echo "pictures: $compared compared, $([ "$failed" -eq 0 ] && echo 'all as the code' || echo 'NOT all as the code')"
[ "$failed" -eq 0 ]
