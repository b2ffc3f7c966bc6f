#!/usr/bin/env bash
# The program in docs/LIBRARY.md's section "A whole program" is what stands between the two marks of crates/goheap_example/src/main.rt, and what
# the section says that it prints is that crate's `stdout`; so it is with "Two threads, one global" and goheap_race. README.md's section "The
# library" shows what the first does on a processor.
set -u
cd "$(dirname "$0")/.." || exit 1
example=crates/goheap_example passed=0 failed=0

# The n-th block of a page's section, without its fences.
block() {
  awk -v section="## $2" -v wanted="$3" '/^## / { on = $0 == section; next }
    on && /^```/ { inside = !inside; if (inside) n++; next }
    on && inside && n == wanted' "$1"
}
# What stands between the marks of a program, if each stands once and in this order.
marked() {
  awk '$0 == "// docs/LIBRARY.md shows this, up to here." { ends++; on = 0 }
    on
    $0 == "// docs/LIBRARY.md shows this, from here on." { begins++; on = 1 }
    END { exit !(begins == 1 && ends == 1 && !on) }' "$1/src/main.rt"
}

# What the example does on a processor.
played() { awk '/^impl Play for / { on = 1 } on; on && /^}/ { exit }' "$example/src/main.rt"; }

# What a page has is what stands in the crate, and is not nothing.
compare() {
  local what=$1 shown=$2 file=$3 stands=$4
  if [ -n "$shown" ] && [ "$shown" = "$stands" ]; then
    passed=$((passed + 1))
  else
    echo "check_library_example: $what (<) is not that of $file (>):"
    diff <(printf '%s\n' "$shown") <(printf '%s\n' "$stands")
    failed=$((failed + 1))
  fi
}

while IFS='|' read -r program section; do
  if stands=$(marked "$program"); then
    compare "the program in docs/LIBRARY.md, $section," "$(block docs/LIBRARY.md "$section" 1)" "$program/src/main.rt" "$stands"
  else
    echo "check_library_example: $program/src/main.rt does not have its two marks, each once"
    failed=$((failed + 1))
  fi
  compare "what it prints by docs/LIBRARY.md, $section," "$(block docs/LIBRARY.md "$section" 2)" "$program/stdout" "$(cat "$program/stdout")"
done <<END
$example|A whole program
crates/goheap_race|Two threads, one global
END
compare 'what README.md shows' "$(block README.md 'The library' 1)" "$example/src/main.rt" "$(played)"
echo "library example: $passed passed, $failed failed"
[ "$failed" -eq 0 ]
