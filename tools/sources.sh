# A part of goheap.sh: a name for the sources of the program of `crate`. The program bears it, so that one of other sources is never run.

# The crates that the program stands on and itself, each with what crates.txt says of it.
crates_below() {
  awk -v top="$crate" '{ sub(/#.*/, "") } /:/ { split($0, line, ":"); split(line[1], words, " "); below[words[1]] = line[2]; said[words[1]] = $0 }
    function reach(name, names, n, i) { if (!(name in below) || name in seen) return; seen[name]; print said[name]
      n = split(below[name], names, " "); for (i = 1; i <= n; i++) reach(names[i]) }
    END { reach(top) }' "$here/crates.txt"
}

# What a check of these crates reads, each file with its sum. It fails where one cannot be read.
list_sources() (
  set -o pipefail
  cd "$here" && crates_below && cat HANDLES || exit
  find "${crates[@]/#/crates/}" \( -name out -o -name must-fail \) -prune -o -type f \( -name '*.rt' -o -name '*.antt' -o -name BUILD.bazel \) -print0 |
    LC_ALL=C sort -z | xargs -0 sha256sum
)

# Whether nothing has changed since the name in out/CRATE.sources was made: no file or folder of the crates that stand there is newer.
is_remembered() {
  { read -r name && read -r -a crates; } 2>/dev/null <"$out/$crate.sources" || return 1
  [ -z "$(cd "$here" && find crates.txt HANDLES tools/sources.sh "${crates[@]/#/crates/}" \( -name out -o -name must-fail \) -prune -o -cnewer "out/$crate.sources" -print -quit 2>&1)" ]
}

# Sets `name` to the name of the sources, and `crates` to the crates that it counts.
know_sources() {
  local began
  if is_remembered; then return; fi
  printf -v began '%(%s)T' -1
  name_sources
  [ -w "$out" ] || return 0
  # Two seconds older than the look at the files, so that one that was changed meanwhile is newer.
  printf '%s\n' "$name" "${crates[*]}" >"$out/$crate.sources.$$" && touch -d "@$((began - 2))" "$out/$crate.sources.$$" && mv "$out/$crate.sources.$$" "$out/$crate.sources"
}

name_sources() {
  local list
  mapfile -t crates < <(crates_below | sed 's/[ :].*//')
  list=$(list_sources) || fail 1 'the sources cannot be read, or not all of them'
  name=$(sha256sum <<<"$list" | cut -c 1-16)
}
