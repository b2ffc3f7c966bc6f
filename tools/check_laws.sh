#!/usr/bin/env bash
# Each law carries something: it is called, however far up, by code that is no law, or tools/owed_laws.txt has its name and, behind a '#', the
# sentence that it is owed to. A law is a public function without arguments that has `ensures`; calls by tests count for nothing.
set -u
cd "$(dirname "$0")/.." || exit 1
owed=tools/owed_laws.txt
[ -r "$owed" ] || { echo "check_laws: there is no $owed"; exit 1; }

# Lines "law CRATE NAME FILE", "call CRATE NAME CALLED" of a law's body, and "root CRATE CALLED" of other code, where CALLED is CRATE::NAME.
read_crates() {
  find crates -name '*.rt' -not -path '*/out/*' -not -path 'crates/*_tests/*' -not -name '*test*' | sort | xargs awk '
    function start() { split(FILENAME, path, "/"); crate = path[2]; state = held = body = use = skip = ""; split("", from) }
    # of a `use` statement: which crate each of its names is from
    function imported(text,   whence, names, n, i, name) {
      whence = text; sub(/^(pub )?use /, "", whence); sub(/[^a-z_0-9].*/, "", whence)
      if (whence == "crate" || whence == "super" || whence == "self") whence = crate
      sub(/;.*/, "", text); gsub(/[{}:,]/, " ", text); n = split(text, names, " ")
      for (i = 1; i <= n; i++) {
        name = names[i]
        if (names[i + 1] == "as") { from[names[i + 2]] = whence; real[FILENAME, names[i + 2]] = name; i += 2 } else from[name] = whence
      }
    }
    # each call NAME(); of a text, with the path before its name
    function calls(text, who,   call, name, whence) {
      sub(/\/\/.*/, "", text)
      while (match(text, /[a-z_][a-z_0-9]*(::[a-z_][a-z_0-9]*)*(::<[^;()]*>)?\(\);/)) {
        call = substr(text, RSTART, RLENGTH); text = substr(text, RSTART + RLENGTH)
        sub(/(::<[^;()]*>)?\(\);/, "", call)
        name = whence = call; sub(/.*::/, "", name)
        if (whence ~ /::/) sub(/::.*/, "", whence); else whence = name in from ? from[name] : crate
        if (whence == "crate" || whence == "super" || whence == "self") whence = crate
        if ((FILENAME, name) in real) name = real[FILENAME, name]
        print who, whence "::" name
      }
    }
    function other(text,   n, i, lines) { n = split(text, lines, "\n"); for (i = 1; i <= n; i++) calls(lines[i], "root " crate) }
    function none() { other(held); state = held = "" }
    FNR == 1 { start() }
    skip && /^}/ { skip = ""; next }
    skip { next }
    tests && /^ *(pub )?mod [a-z_0-9]+ \{/ { skip = 1; tests = ""; next }
    { tests = $0 ~ /^#\[cfg\(test\)\]/ }
    use || /^(pub )?use / { use = use " " $0; if (/;/) { sub(/^ /, "", use); imported(use); use = "" } next }
    state == "" && /^pub fn [a-z_0-9]+(<[^(]*>)?\(\)$/ {
      law = $0; sub(/^pub fn /, "", law); sub(/[^a-z_0-9].*/, "", law); state = "head"; ensures = 0; held = $0; next }
    state == "head" && /^(    (ensures|requires|\/\/)|        )/ { if (/^    ensures/) ensures = 1; held = held "\n" $0; next }
    state == "head" && ensures && /^\{[^{}]*\}/ { print "law", crate, law, FILENAME; calls($0, "call " crate " " law); state = held = ""; next }
    state == "head" && ensures && /^\{$/ { state = "body"; body = ""; held = held "\n" $0; next }
    state == "head" { none() }
    state == "body" && /^}/ {
      print "law", crate, law, FILENAME; n = split(body, lines, "\n"); for (i = 1; i <= n; i++) calls(lines[i], "call " crate " " law)
      state = held = ""; next }
    state == "body" && /[{}]/ { held = held "\n" $0; none(); next }
    state == "body" { body = body "\n" $0; held = held "\n" $0; next }
    { calls($0, "root " crate) }'
}

read_crates | awk -v owed="$owed" '
  function target(called,   name, i) { if (called in file) return called; name = called; sub(/.*::/, "", name); return name in any ? any[name] : "" }
  function reach(called) { called = target(called); if (called != "" && !(called in reached)) { reached[called]; todo[++last] = called } }
  $1 == "law" { key = $2 "::" $3; file[key] = $4; any[$3] = key; order[++laws] = key }
  $1 == "call" { body[$2 "::" $3] = body[$2 "::" $3] " " $4 }
  $1 == "root" { roots[++count] = $3 }
  END {
    for (i = 1; i <= count; i++) reach(roots[i])
    for (first = 1; first <= last; first++) { n = split(body[todo[first]], called, " "); for (i = 1; i <= n; i++) reach(called[i]) }
    while ((getline line < owed) > 0) {
      name = line; sub(/#.*/, "", name); gsub(/[ \t]/, "", name)
      if (name == "") continue
      sentence = line; if (!sub(/^[^#]*#[ \t]*/, "", sentence)) sentence = ""
      if (name in listed) { print "check_laws: " owed " names " name " twice"; failed++ }
      listed[name] = 1
      if (sentence == "") { print "check_laws: " owed " has no sentence for " name; failed++ }
    }
    for (i = 1; i <= laws; i++) {
      key = order[i]; name = key; sub(/.*::/, "", name); there[name]
      if (key in reached) passed++
      else if (name in listed) { passed++; idle[name] }
      else { print "check_laws: " name " (" file[key] ") is called by no code and is not in " owed; failed++ }
    }
    for (name in listed) {
      if (!(name in there)) { print "check_laws: " owed " names " name ", and there is no such law"; failed++ }
      else if (!(name in idle)) { print "check_laws: " owed " names " name ", which is called by now"; failed++ }
    }
    if (laws == 0) { print "check_laws: no law was found"; failed++ }
    printf "laws: %d passed, %d failed\n", passed, failed
    exit failed > 0
  }'
