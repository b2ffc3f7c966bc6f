#!/usr/bin/env bash
# Each link of a document leads to a file that there is, and so does each file of ours that docs/GO.md names.
set -u
cd "$(dirname "$0")/.." || exit 1
looked=0 failed=0

there_is() {
  looked=$((looked + 1))
  if [ ! -e "$2" ]; then
    echo "check_links: $1 names $2, and there is none"
    failed=1
  fi
}
for page in README.md docs/*.md docs/*/*.md bench/*.md; do
  while read -r link; do
    there_is "$page" "$(dirname "$page")/$link"
  done < <(grep -o '](\([^)#:]*\))' "$page" | sed 's/^](//; s/)$//')
done
while read -r crate files; do
  for file in $files; do there_is docs/GO.md "crates/$crate/src/$file"; done
done < <(grep -o '(gh_[a-z]*, [^)]*)' docs/GO.md | tr -d '(),`')
echo "links: $looked looked up, $([ "$failed" -eq 0 ] && echo 'all there' || echo 'NOT all there')"
[ "$failed" -eq 0 ]
