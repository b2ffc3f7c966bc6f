#!/usr/bin/env bash
# Prints of each crate how many wrong bodies it has, its lines of .rt and .antt, and the memory in GB that `rt ci` counts for its check: 1, and 1 for
# each 1,000 lines of its .rt files, 0.2 for each 1,000 of its .antt files, and 0.08 for each 1,000 lines of .rt in the crates below it. What the
# check loads of the kit comes on top. A crate that counts more than 5 makes others wait.
#   tools/memory.sh [CRATE..]     these crates, or all
set -u
cd "$(dirname "$0")/.." || exit 1

lines() { find "crates/$1" -name out -prune -o -name "*.$2" -exec cat {} + | wc -l; }
edits() { find "crates/$1/must-fail" -name '*.edit' 2>/dev/null | wc -l; }

while read -r crate; do
  echo "$crate $(lines "$crate" rt) $(lines "$crate" antt) $(edits "$crate")"
done < <(awk '{ sub(/#.*/, "") } /:/ { sub(/[ :].*/, ""); print }' crates.txt) |
  awk -v wanted=" $* " '
    function below(crate, n, i, names) {
      n = split(uses[crate], names, " ")
      for (i = 1; i <= n; i++) if (names[i] in rt && !(names[i] in seen)) { seen[names[i]]; sum += rt[names[i]]; below(names[i]) }
    }
    FILENAME == "crates.txt" { sub(/#.*/, ""); if (/:/) { name = $1; sub(/:.*/, "", name); sub(/^[^:]*:/, ""); uses[name] = $0 } next }
    { order[++crates] = $1; rt[$1] = $2; antt[$1] = $3; edits[$1] = $4 }
    END {
      printf "%-20s %12s %8s %8s %8s\n", "crate", "wrong bodies", ".rt", ".antt", "GB"
      for (i = 1; i <= crates; i++) {
        crate = order[i]; split("", seen); sum = 0; below(crate); all += edits[crate]
        if (wanted ~ /^ *$/ || index(wanted, " " crate " "))
          printf "%-20s %12d %8d %8d %8.1f\n", crate, edits[crate], rt[crate], antt[crate], 1 + rt[crate] / 1000 + antt[crate] / 5000 + sum * 0.08 / 1000
      }
      if (wanted ~ /^ *$/) printf "%-20s %12d\n", "all", all
    }' crates.txt -
