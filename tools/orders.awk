# Whether some order of a script's statements gives an output: each goroutine's statements in their own order, and the heap one that never
# frees. It ends with status 0 if one does, and else with a line that says what no order gives.
#   awk -f tools/orders.awk SCRIPT OUTPUT
# What a goroutine has in its registers follows from what its loads were answered. So each goroutine is a list of reads and writes of shared
# words, which are the globals and the fields of objects, and an order is sought in which each read finds what was written last. A read that finds it
# is taken at once, since it changes nothing for others; among writes all are tried, but for what was tried before. At the end so many objects
# have to be led to by the globals as the output tells as live. That a `new` is answered `full` is taken over, and the one fault that is known is that
# a base names no object.

# The script: the statements of each goroutine, with what is repeated written out.
FNR == 1 { files++ }
files == 1 && ($1 ~ /^#/ || NF == 0) { next }
files == 1 && $1 == "type" { shape[$2] = $3; next }
files == 1 && $1 == "go" { name[++goroutines] = $2; open = 0; many = 0; next }
files == 1 && $1 == "repeat" { times[++open] = $2; from[open] = many; next }
files == 1 && $1 == "end" && open == 0 { statements[goroutines] = many; next }
files == 1 && $1 == "end" { repeat_from(from[open], times[open]); open--; next }
files == 1 && goroutines > 0 { line[goroutines, ++many] = $0; next }
# The output.
files == 2 && $1 == "cycle" { freed += $6; next }
files == 2 && $1 == "live" { live = $2; next }
files == 2 && $1 != "credit" { text = $0; sub(/^[^ ]+ [^ ]+ /, "", text); told[$1, $2] = text; lines++ }
END {
  for (g = 1; g <= goroutines; g++) read_and_written(g)
  if (asked != lines) refuse("the output has " lines " answers, and the script asks for " asked)
  if (freed + live != made) refuse("of " made " objects " freed + 0 " were freed and " live " are live")
  if (!is_ordered()) refuse("no order gives these answers and " live " live objects")
}

function refuse(why) { print "orders: " why; exit 1 }

function repeat_from(start, n, i, length_of) {
  length_of = many - start
  for (i = length_of + 1; i <= length_of * n; i++) line[goroutines, start + i] = line[goroutines, start + i - length_of]
  many = start + length_of * n
}

# The answer to a statement, which the output has to tell.
function answer(g, i) {
  if (!((name[g], i) in told)) refuse(name[g] " " i " has no answer")
  asked++
  return told[name[g], i]
}

# The list of goroutine g: what it does to which word, and with which value.
function read_and_written(g, i, w, n, own, reg, what) {
  for (i = 0; i < 16; i++) reg["r" i] = "nil"
  own = 0
  events[g] = 0
  for (i = 1; i <= statements[g]; i++) {
    n = split(line[g, i], w, /[ \t]+/)
    if (w[1] == "") for (n = 1; n < 6; n++) w[n] = w[n + 1]
    what = w[1]
    if (what == "new") {
      reg[w[2]] = "nil"
      if (answer(g, i) != "full") {
        reg[w[2]] = "ref " name[g] "." own++
        made++
        if (told[name[g], i] != reg[w[2]]) refuse(name[g] " " i " is not answered " reg[w[2]])
        type_of[substr(reg[w[2]], 5)] = w[3]
      }
    } else if (what == "gc") {
      if (answer(g, i) != "swept") refuse(name[g] " " i " is not answered swept")
    } else if (what == "int") reg[w[2]] = "int " w[3]
    else if (what == "move") reg[w[2]] = reg[w[3]]
    else if (what == "nil") reg[w[2]] = "nil"
    else if (what == "gstore") event(g, "w", "global " w[2], reg[w[3]])
    else if (what == "gload") event(g, "r", "global " w[3], reg[w[2]] = answer(g, i))
    else if (reg[what == "load" ? w[3] : w[2]] !~ /^ref /) {
      if (answer(g, i) != "fault nil") refuse(name[g] " " i " is not answered fault nil")
    } else if (what == "store") event(g, "w", field(reg[w[2]], w[3]), reg[w[4]])
    else if (what == "load") event(g, "r", field(reg[w[3]], w[4]), reg[w[2]] = answer(g, i))
  }
}
function field(object, k) { sub(/^ref /, "", object); return object " " k }
function event(g, how, word, value, i) {
  i = ++events[g]
  does[g, i] = how; of[g, i] = word; with[g, i] = value
  memory[word]
  if (how == "w" && !((word, g) in writes)) {
    writes[word, g]
    if (++writers[word] == 2) shared[++shared_words] = word
  }
}

# What a word holds at first.
function initial(word, part) {
  split(word, part, " ")
  return part[1] == "global" || is_pointer(shape[type_of[part[1]]], part[2]) ? "nil" : "int 0"
}
function is_pointer(of_type, k, letter, n) {
  while (of_type != "") {
    letter = substr(of_type, 1, 1)
    of_type = substr(of_type, 2)
    n = 1
    if (match(of_type, /^\*[0-9]+/)) { n = substr(of_type, 2, RLENGTH - 1); of_type = substr(of_type, RLENGTH + 1) }
    if (k < n) return letter == "p"
    k -= n
  }
  return 0
}

# The search. `at` is how many events of each goroutine are taken, and a state is that and what shared words hold: all else follows.
function is_ordered(depth, g, word) {
  for (word in memory) memory[word] = initial(word)
  for (g = 1; g <= goroutines; g++) at[g] = 0
  depth = 0
  tried[0] = 0
  take_reads()
  for (;;) {
    if (is_end()) return 1
    g = next_writer(tried[depth])
    if (g > goroutines) {
      if (depth == 0) return 0
      back(--depth)
      continue
    }
    tried[depth] = g
    write(depth, g)
    take_reads()
    if (is_new()) tried[++depth] = 0; else back(depth)
  }
}
function take_reads(g, i) {
  for (g = 1; g <= goroutines; g++)
    for (i = at[g] + 1; i <= events[g] && does[g, i] == "r" && memory[of[g, i]] == with[g, i]; i++) at[g] = i
}
function next_writer(g) {
  for (g++; g <= goroutines; g++) if (at[g] < events[g] && does[g, at[g] + 1] == "w") break
  return g
}
function write(depth, g, i) {
  for (i = 1; i <= goroutines; i++) before[depth, i] = at[i]
  i = ++at[g]
  word_before[depth] = of[g, i]
  value_before[depth] = memory[of[g, i]]
  memory[of[g, i]] = with[g, i]
}
function back(depth, i) {
  for (i = 1; i <= goroutines; i++) at[i] = before[depth, i]
  memory[word_before[depth]] = value_before[depth]
}
function is_new(state, i) {
  for (i = 1; i <= goroutines; i++) state = state " " at[i]
  for (i = 1; i <= shared_words; i++) state = state "," memory[shared[i]]
  if (state in seen) return 0
  seen[state]
  return 1
}
function is_end(g) {
  for (g = 1; g <= goroutines; g++) if (at[g] < events[g]) return 0
  return reached() == live
}
# How many objects the globals lead to.
function reached(word, part, object, more, many, is_reached) {
  do {
    more = 0
    for (word in memory) {
      object = memory[word]
      if (!sub(/^ref /, "", object) || object in is_reached) continue
      split(word, part, " ")
      if (part[1] == "global" || part[1] in is_reached) { is_reached[object]; many++; more = 1 }
    }
  } while (more)
  return many + 0
}
