#!/usr/bin/env bash
# Names in pictures, in the heads of .rt files (lines //!) and in docs/THREADS.md exist: each crate is a folder of crates/, each file is there, and
# each name of code stands in some crate's code or specs. Where it says of which crate a name is, as in "`Machine` of `gh_base`" or
# "`Machine` (`gh_base`, `machine.rt`)", the name stands in that crate, and the file is one of its files.
# A file is also of a crate that passes on what it defines, by its specs/Below.antt.
# Names of code are those in back quotes (in a picture, those of class code) with _ or :: in them, and all of which the crate is said.
set -u
cd "$(dirname "$0")/.." || exit 1
export LC_ALL=C
work=$(mktemp -d) || exit 1
trap 'rm -rf "$work"' EXIT

# Each text as a line "WHERE<tab>CRATE<tab>TEXT", where CRATE is the crate of a head, and - of anything else.
heads() {
  find crates -name out -prune -o -path '*/src/*.rt' -print | sort | xargs awk '
    FNR == 1 { if (text != "") print text; split(FILENAME, path, "/"); text = ""; begun = 0 }
    /^\/\/!/ { line = $0; sub(/^\/\/! ?/, "", line); if (line == "") line = "."; text = (begun++ ? text : FILENAME "\t" path[2] "\t") " " line }
    END { if (text != "") print text }'
}
pages() { awk 'FNR == 1 && text != "" { print text; text = "" } { text = (text == "" ? FILENAME "\t-\t" : text) " " $0 } END { print text }' docs/THREADS.md; }
# The names in the texts of a picture are put between back quotes: those with _ or ::, and all capitalised ones of class code.
pictures() {
  find docs -name '*.svg' ! -name 'run_*' ! -name pacing.svg | sort | while read -r file; do
    grep -o '<t[a-z]*[^>]*>[^<]*<' "$file" | grep -v '^<title\|^<tspan class="later' | awk -v file="$file" '
      { is_code = $0 ~ /class="[^"]*code/; text = $0; sub(/^[^>]*>/, "", text); sub(/<$/, "", text); out = ""
        while (match(text, /[A-Za-z][A-Za-z0-9_]*(::[a-z_][a-z_0-9]*)?(\.(rt|antt|sh|md))?/)) {
          name = substr(text, RSTART, RLENGTH)
          is_name = name ~ /_|::|\.(rt|antt|sh|md)$/ || is_code && name ~ /^[A-Z][a-z]+[A-Za-z]*$/
          out = out substr(text, 1, RSTART - 1) (is_name ? "`" name "`" : name); text = substr(text, RSTART + RLENGTH) }
        if (out text != "") print file "\t-\t" out text }'
  done
}
# Lines "CRATE NAME" of each word of code of a crate.
words_of_code() {
  find crates -name out -prune -o -name must-fail -prune -o \( -path '*/src/*.rt' -o -path '*/specs/*.antt' -o -path '*/src/*.antt' \) -print | xargs awk '
    FNR == 1 { split(FILENAME, path, "/"); crate = path[2] }
    /^[[:space:]]*(\/\/|--)/ { next }
    { line = $0; sub(/\/\/.*/, "", line); gsub(/[^A-Za-z0-9_]+/, " ", line); n = split(line, word, " ")
      for (i = 1; i <= n; i++) if (!((crate, word[i]) in seen)) { seen[crate, word[i]]; print crate, word[i] } }'
}

words_of_code >"$work/words"
find crates -name out -prune -o \( -path '*/src/*' -o -path '*/specs/*' -o -path '*/proofs/*' \) -type f -print >"$work/files"
# lines "CRATE FILE" of what a crate passes on
find crates -name out -prune -o -path '*/specs/Below.antt' -print | xargs awk '
  match($0, /^pub use Rattle\.gh_[a-z_]+\.specs\.[A-Za-z.]+\.\{/) {
    split(FILENAME, path, "/"); name = $3; sub(/^Rattle\.gh_[a-z_]+\./, "", name); sub(/\.\{.*/, "", name); gsub(/\./, "/", name); print path[2], name ".antt" }' >"$work/passed"
find docs tools bench runs examples .ci README.md goheap.sh crates.txt HANDLES -type f >>"$work/files"
{ heads; pages; pictures; } >"$work/texts"
awk -F'\t' -v words="$work/words" -v files="$work/files" -v passed="$work/passed" '
  function fail(text) { print "check_names: " where " names " text ", and there is none"; failed++ }
  function last_of(name) { sub(/.*::/, "", name); sub(/<.*/, "", name); sub(/[(].*/, "", name); return name }
  function is_file(name) { return name ~ /^[A-Za-z_\/.0-9-]+\.(rt|antt|sh|awk|md|heap|svg|txt|out|steps)$/ }
  function is_code(name) { return name ~ /^[A-Za-z_][A-Za-z0-9_]*(::[A-Za-z_][A-Za-z0-9_]*)*(\(\))?$/ }
  # the file stands in the crate, or from the top on
  function has_file(crate, name) { return (name in at_top) || (crate, name) in file || (crate, "src/" name) in file || name !~ /\// && (crate, name) in base }
  function check(name, crate,   last) {
    if (name ~ /^gh_[a-z_]+$/ || name ~ /^goheap_[a-z_]+$/) { looked++; if (!(name in is_crate)) fail("the crate " name); return }
    if (is_file(name)) {
      looked++
      if (!has_file(crate == "" ? own : crate, name) && !(crate == "" && has_file(near, name))) fail("the file " name (crate == "" ? "" : " of " crate))
      return
    }
    if (!is_code(name) || (crate == "" && name !~ /_|::/)) return
    looked++
    last = last_of(name)
    if (crate in is_crate ? !((crate, last) in word) : !(last in any)) fail(name (crate == "" ? "" : " of " crate))
  }
  BEGIN {
    while ((getline line < words) > 0) { split(line, part, " "); word[part[1], part[2]]; any[part[2]]; is_crate[part[1]] }
    while ((getline line < passed) > 0) { split(line, part, " "); file[part[1], part[2]] }
    while ((getline line < files) > 0) {
      at_top[line]
      if (line ~ /^crates\//) { split(line, part, "/"); rest = line; sub(/^crates\/[^\/]*\//, "", rest); file[part[2], rest]; is_crate[part[2]]; sub(/.*\//, "", rest); base[part[2], rest] }
    }
  }
  {
    where = $1; own = $2; near = own; text = $3; gsub(/[[]`/, "`", text); gsub(/`[]]/, "`", text)
    n = split(text, part, "`")
    for (i = 2; i <= n; i += 2) {
      crate = ""
      # of which crate: "`name` of `gh_x`", "`name` (`gh_x`", and, for a file, the crate before it, "(`gh_x`, `file`"
      if (part[i + 2] ~ /^gh_[a-z_]+$/ && (part[i + 1] ~ /^ of $/ || part[i + 1] ~ /^ \($/ && part[i] ~ /_|::|^[A-Z]/)) crate = part[i + 2]
      if (is_file(part[i]) && part[i - 1] ~ /^, $/ && part[i - 2] ~ /^gh_[a-z_]+$/) crate = part[i - 2]
      check(part[i], crate)
      if (part[i] in is_crate) near = part[i]
    }
  }
  END { printf "names: %d looked up, %s\n", looked, failed ? failed " NOT there" : "all there"; exit failed > 0 || looked == 0 }' "$work/texts"
