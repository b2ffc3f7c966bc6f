# A part of goheap.sh: makes the page of a run from its script (the first file) and the lines of `goheap_steps --trace` (the second,
# docs/TRACE.md), into the page `template`. Everything that the page shows of a moment is a key with a value: a line of its data says at which turn a key takes
# which value, so that the state at a turn is what the lines up to it say. A run with more lines than `most` is thinned: of each `group` turns
# together only the last value of each key is kept, with groups as small as that allows.
# It is tested (tools/check_watch.sh), and nothing is proved of it.
#   f phase and stop   c cycle begun   m cycle marked   w cycle swept   H heap   T trigger   B bank   W want
#   pP page            oG.K object     eG.K F field     rG.R register   gK global
#   nG statements answered             aA stop acknowledged             lA what the actor has done
BEGIN { if (!most) most = 300000; if (!most_bytes) most_bytes = 4700000; group = 1; n = 0; all = 0; marked = 0; script_bytes = 0 }
FILENAME == "-" { read_script(); next }
!begun_reading { begun_reading = 1; if ($0 != "trace 1") { print > "/dev/stderr"; is_bad = 1; exit } next }
$1 == "settings" { settings = $0; procs = $3 + 0; workers = $5 + 0; next }
$1 == "turns" { turns = $2 + 0; next }
$1 == "credit" || $1 == "live" { tail_lines = tail_lines $0 "\\n"; next }
$1 == "broken" { turns = $3 + 0; tail_lines = "turns " turns "\\n"; next }
$1 == "actor" || $1 == "goroutine" { next }
{ turn = $1 + 0; actor = $2 }
$3 == "acts" { acts(number[$4], $5 + 0); next }
$3 == "answers" { answers(number[$4], $5 + 0); next }
$3 == "page" { page(); next }
$3 == "made" { stands(short($4), $6 + 0, $7); next }
$3 == "freed" { set("o" short($4), "x"); delete place[short($4)]; next }
$3 == "shades" { shades(short($4), $7); next }
$3 == "scans" { scans($4); next }
$3 == "claims" { claimed[actor] = 1; set("l" actor, "claims global " $4); next }
$3 == "takes" { takes($4); next }
$3 == "gives" { gives(); next }
$3 == "acknowledges" { black(carried[actor]); carried[actor] = ""; set("a" actor, $4); next }
$3 == "stack" { set("l" actor, "has scanned the stack of " $4); next }
$3 == "ends" { ends(number[$4]); next }
$3 == "phase" { set("f", $4 " " $5); next }
$3 == "begins" { begun = $4; set("c", $4); next }
$3 == "marked" { marked = $4; settle(); set("m", $4); next }
$3 == "swept" { set("w", $4 " " $6 " " $8 " " $10); cycle_lines = cycle_lines "cycle " $4 " marked " $6 " freed " $8 "\\n"; next }
$3 == "heap" { set("H", $4); next }
$3 == "trigger" { set("T", $4); next }
$3 == "bank" { set("B", $4); next }
$3 == "want" { set("W", $4); next }
$3 == "done" { set("l" actor, "is done"); next }
END { if (!is_bad && turns != "") write_page() }

# A key takes a value at this turn. In a run that is thinned the numbers in fields are left out.
function set(key, value) {
  all++
  if (group > 1 && is_number_field(key, value)) return
  n++
  at[n] = turn; keys[n] = key; values[n] = value
  if (n > most) thin()
}
function is_number_field(key, value) { return substr(key, 1, 1) == "e" && value ~ / i/ }
# The groups are doubled, and of each the last value of each key is kept, and nothing of an object that is made and freed in it, until there
# is room.
function thin(   i, k, in_group, was, seen, freed, key, name) {
  do {
    group *= 2; k = n + 1; was = -1
    for (i = n; i >= 1; i--) {
      in_group = int((at[i] - 1) / group)
      if (in_group != was) { split("", seen); split("", freed); was = in_group }
      key = keys[i]
      if (key ~ /^e/) {
        name = substr(key, 2)
        if (name in freed || is_number_field(key, values[i])) continue
        key = key " " substr(values[i], 1, index(values[i], " "))
      }
      if (key in seen) continue
      seen[key]
      if (values[i] == "x" && key ~ /^o/) {
        name = substr(key, 2); freed[name]
        if (int((first_at[name] - 1) / group) == in_group) continue
      }
      k--
      if (k != i) { at[k] = at[i]; keys[k] = keys[i]; values[k] = values[i] }
    }
    if (k > 1) for (i = k; i <= n; i++) { at[i - k + 1] = at[i]; keys[i - k + 1] = keys[i]; values[i - k + 1] = values[i] }
    n = n - k + 1
  } while (n > 0.8 * most)
}

# The script: its statements with repetitions written out, and the shapes of its types.
function read_script(   i, k, until) {
  sub(/\r$/, "")
  script_lines[++many_lines] = $0
  script_bytes += length($0) + 1
  if ($1 ~ /^#/ || NF == 0) return
  if ($1 == "type") type_shape[$2] = $3
  else if ($1 == "go") { number[$2] = goroutines + 0; names = names (goroutines ? " " : "") $2; g = goroutines++; many = 0 }
  else if ($1 == "repeat") { depth++; times[depth] = $2; begins[depth] = many }
  else if ($1 == "end" && depth > 0) { until = many; for (k = 1; k < times[depth]; k++) for (i = begins[depth] + 1; i <= until; i++) statement[g, ++many] = statement[g, i]; depth-- }
  else if ($1 != "end" && goroutines) { $1 = $1; statement[g, ++many] = $0 }
}
# An object's name with its goroutine's number.
function short(name,   part) { split(name, part, "."); return number[part[1]] "." part[2] }
# Whether field k of a type is a pointer.
function is_pointer(type, k,   shape, run, i) {
  if ((type, k) in pointer) return pointer[type, k]
  shape = type_shape[type]; i = 0
  while (shape != "") {
    match(shape, /^[pn](\*[0-9]+)?/)
    run = RLENGTH > 2 ? substr(shape, 3, RLENGTH - 2) + 0 : 1
    if (k < i + run) return pointer[type, k] = substr(shape, 1, 1) == "p"
    i += run; shape = substr(shape, RLENGTH + 1)
  }
  return pointer[type, k] = 0
}
# A statement has its point: what it stores stands there from now on. A value is nil, a number i7, or an object 0.5.
function value_of(g, register) { return (g, register) in registers ? registers[g, register] : "nil" }
function acts(g, k,   word, base, value, count) {
  count = split(statement[g, k], word, " ")
  if (word[1] == "store") {
    base = value_of(g, word[2]); value = value_of(g, word[4])
    if (base !~ /\./ || word[3] + 0 >= words_of[base]) return
    if (is_pointer(type_of[base], word[3] + 0) ? value ~ /^i/ : value !~ /^i/) return
    set("e" base, word[3] + 0 " " value)
  } else if (word[1] == "gstore") {
    value = value_of(g, word[3])
    if (value !~ /^i/) set("g" word[2] + 0, value)
  } else if (word[1] == "new" && made_at == turn) type_of[made] = word[3]
}
# An object stands from this step on, in a slot of the span whose first page is its own or one before it.
function stands(name, index_of, colour,   first) {
  place[name] = index_of; made = name; made_at = first_at[name] = turn
  for (first = int(index_of / 1024); first > 0 && !(first in words_in); first--);
  words_of[name] = words_in[first]
  set("o" name, index_of " " (colour == "black" ? "b" begun : "w"))
}
function answers(g, k,   word, value, told) {
  split(statement[g, k], word, " ")
  told = $6
  if (word[1] ~ /^(new|load|gload)$/ && told != "fault") set_register(g, word[2], told == "int" ? "i" $7 : told == "ref" ? short($7) : "nil")
  else if (word[1] == "int") set_register(g, word[2], "i" word[3])
  else if (word[1] == "move") set_register(g, word[2], value_of(g, word[3]))
  else if (word[1] == "nil") set_register(g, word[2], "nil")
  set("n" g, k)
  set("l" actor, "s " g " " k (told == "done" ? "" : " " substr($0, index($0, " answers ") + 9 + length($4 $5) + 2)))
}
function set_register(g, register, value) { if (value_of(g, register) != value) { registers[g, register] = value; set("r" g "." substr(register, 2), value) } }
function ends(g,   k) { for (k = 0; k < 16; k++) set_register(g, "r" k, "nil"); set("n" g, "end"); set("l" actor, "ends " $4) }
# A page word: of a span its pages, slots, words and class, whether it is scanned, its owner, and the cycle by which it is swept or in sweep.
function page(   class, i) {
  if ($5 == "free") { set("p" $4, "x"); delete words_in[$4 + 0]; return }
  class = $5 == "class" ? $6 : "L"
  i = $5 == "class" ? 7 : 6
  words_in[$4 + 0] = $(i + 5) + 0
  set("p" $4, $(i + 1) " " $(i + 3) " " $(i + 5) " " class " " ($(i + 6) == "scan" ? "s" : "n") " " $(i + 8) " " $NF " " marked)
  if ($NF == "in-sweep") set("l" actor, "sweeps the span of page " $4)
}

# Which object is grey: one that is shaded is until it is scanned. An actor holds a buffer, whose objects are in_buffer[actor, 1 ..], and it scans the
# one in its hand, which it took as the last.
function push(a, name) { in_buffer[a, ++held[a]] = name }
function pop(a) { return held[a] > 0 ? in_buffer[a, held[a]--] : "" }
function is_worker(a) { return a >= procs && a < procs + workers }
function black(name) { if (name != "" && grey[name]) { delete grey[name]; set("o" name, place[name] " b" begun) } }
function shades(name, colour) {
  set("o" name, place[name] " " (colour == "grey" ? "g" : "b") begun)
  set("l" actor, "shades " $4)
  if (colour != "grey") return
  grey[name] = 1
  if (is_worker(actor) && !claimed[actor] && hand[actor] == "") hand[actor] = pop(actor)
  push(actor, name); latest[actor] = name
}
function scans(words) {
  if (claimed[actor]) { claimed[actor] = 0; return }
  if (hand[actor] == "") hand[actor] = pop(actor)
  set("l" actor, "has scanned " words " words")
  black(hand[actor]); hand[actor] = ""
}
function takes(b,   i) {
  # What was shaded by an actor without a buffer is put into this one.
  if (held[actor] > 0) carried[actor] = pop(actor)
  held[actor] = 0
  for (i = 1; i <= many_in[b]; i++) push(actor, in_store[b, i])
  if (carried[actor] != "") { push(actor, carried[actor]); carried[actor] = "" }
}
# Of what the actor held, what is not given back was scanned, or is in its hand, or is to be put into the buffer that it takes next.
function gives(   i, b, there) {
  b = $4; many_in[b] = NF - 4
  for (i = 5; i <= NF; i++) { in_store[b, i - 4] = short($i); there[in_store[b, i - 4]] }
  for (i = held[actor]; i >= 1; i--) {
    if (in_buffer[actor, i] in there) continue
    if (in_buffer[actor, i] == latest[actor] && i == held[actor]) carried[actor] = latest[actor]
    else if (is_worker(actor) && hand[actor] == "") hand[actor] = in_buffer[actor, i]
    else black(in_buffer[actor, i])
  }
  held[actor] = 0; latest[actor] = ""
}
# Where marking has ended, nothing is grey.
function settle(   name, a) { for (name in grey) black(name); split("", grey); for (a in held) { held[a] = 0; hand[a] = ""; carried[a] = ""; claimed[a] = 0 } }

function text_of(text) { gsub(/\\/, "\\\\", text); gsub(/"/, "\\\"", text); gsub(/\t/, "\\t", text); gsub(/[\001-\037\177]/, "?", text); gsub(/</, "\\u003c", text); return "\"" text "\"" }
function bytes_of_data(   i, sum) { for (i = 1; i <= n; i++) sum += length(keys[i]) + length(values[i]) + 5; return sum }
function write_page(   line, i, before) {
  if (script_bytes <= 1000000) most_bytes -= script_bytes + 5 * many_lines
  while (bytes_of_data() > most_bytes) { most = int(n / 2); thin() }
  while ((getline line < template) > 0) {
    if (line ~ /^@data$/) {
      print "const TURNS = " turns ", GROUP = " group ", LEFT_OUT = " all - n ", ALL = " all ", SETTINGS = " text_of(settings) ", NAMES = " text_of(names) ";"
      print "const LAST = \"" cycle_lines tail_lines "\";"
      if (script_bytes > 1000000) print "const SCRIPT = null;"
      else { print "const SCRIPT = ["; for (i = 1; i <= many_lines; i++) print text_of(script_lines[i]) ","; print "];" }
    } else if (line ~ /^@lines$/) {
      before = 0
      for (i = 1; i <= n; i++) { printf "%d %s %s\n", at[i] - before, keys[i], values[i]; before = at[i] }
    } else print line
  }
}
