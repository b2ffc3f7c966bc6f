# A part of goheap.sh: reads a script that was refused, and says in one line what stands in the line that `told` names ("line n: why")
# and what could stand there.
BEGIN {
  if (told !~ /^line [0-9]+: [a-z0-9]+$/) exit
  split(told, part, /[ :]+/)
  at = part[2] + 0
  why = part[3]
  # What follows each first word: n a number, r a register, a a name, s a shape.
  split("procs n,workers n,arena n,globals n,gogc n,minheap n,type as,go a,repeat n,end,new ra,load rrn,store rnr,gload rn,gstore nr,int rn,move rr,nil r,gc", rows, ",")
  for (i = 1; i in rows; i++) { split(rows[i], row, " "); follows[row[1]] = row[2] "."; all = all " " row[1] }
  shown["n"] = "a number"; shown["r"] = "a register"; shown["a"] = "a name"; shown["s"] = "a shape"
  split("procs 1 to 8,workers 1 to 4,arena 16 to 1024,globals 1 to 256,gogc 0 to 1000,minheap 0 to 8388608,repeat 1 to 200000", rows, ",")
  for (i = 1; i in rows; i++) { name = rows[i]; sub(/ .*/, "", name); sub(/^[a-z]+ /, "", rows[i]); limits[name] = rows[i] }
}
NR == 1 { mark = mark_of($0) }
{ sub(/\r$/, "") }
NR == at { line = $0; n = split($0, word, /[ \t]+/); if (word[1] == "") for (i = 1; i <= n; i++) word[i] = word[i + 1]; while (n > 0 && word[n] == "") n--; for (i = 1; i <= n; i++) if (length(word[i]) > 40) word[i] = substr(word[i], 1, 40) ".." }
NR < at && $1 == "type" && NF == 3 { types = types " " $2 }
NR < at && $1 == "globals" { globals = $2 }
END {
  if (!why) exit
  if (length(line) > 60) line = substr(line, 1, 60) ".."
  if (at > 0) line = "line " at " is \"" line "\": "
  line = line says()
  # Of what is quoted nothing reaches a terminal that it would obey.
  gsub(/[^ -~]/, "?", line)
  print "goheap.sh: " line
}
# The byte-order mark with which a text begins, if it does.
function mark_of(text) {
  if (substr(text, 1, 3) == "\357\273\277") return "UTF-8"
  if (substr(text, 1, 2) == "\377\376" || substr(text, 1, 2) == "\376\377") return "UTF-16"
  return ""
}
function says() {
  if (why == "word" && at == 1 && mark == "UTF-8") return "a byte-order mark (EF BB BF) stands before its first word: save the text as UTF-8 without one"
  if (why == "word") return of_word()
  if (why == "number") return of_number()
  if (why == "limit") return of_limit()
  if (why == "unknown") return "no type is named " word[3] ", a type line stands before the first go; there are" (types ? types : " none")
  if (why == "twice") return word[1] == "go" || word[1] == "type" ? "the name " word[2] " is taken" : word[1] " stands a second time"
  if (why == "nesting") return of_nesting()
  if (why == "missing") return "the text has no goroutine: lines from `go name` to `end`"
  if (why == "size") return "the text has more than 4194304 bytes"
  return "the text is no UTF-8" (mark == "UTF-16" ? ": it begins with the byte-order mark of UTF-16, and is to be saved as UTF-8 without one" : "")
}
function fits(kind, text) {
  if (kind == "r") return text ~ /^r([0-9]|1[0-5])$/
  if (kind == "a") return text ~ /^[a-z][a-z0-9]*$/ && length(text) <= 16
  if (kind == "s") return text ~ /^([pn](\*[^pn*]*)?)+$/
  return 1
}
function of_word(   kinds, count, i, kind, low) {
  if (!(word[1] in follows)) {
    low = tolower(word[1])
    return "\"" word[1] "\" begins no line" (low in follows ? ", \"" low "\" does" : ". A line begins with one of" all ", or with # where it says nothing")
  }
  kinds = follows[word[1]]
  count = length(kinds) - 1
  if (n - 1 != count) return word[1] " is followed by " (count ? count " word" (count > 1 ? "s" : "") kinds_of(kinds) : "nothing") ", and here by " n - 1 (line ~ /#/ ? "; a comment has a line of its own" : "")
  for (i = 1; i <= count; i++) {
    kind = substr(kinds, i, 1)
    if (fits(kind, word[i + 1])) continue
    if (kind == "r") return "\"" word[i + 1] "\" is no register: those are r0 to r15" (word[i + 1] ~ /^[0-9]+$/ ? ", and a number is put into one by an int line" : "")
    if (kind == "a") return "\"" word[i + 1] "\" is no name: 1 to 16 lower-case letters and digits, a letter first"
    return "\"" word[i + 1] "\" is no shape: p a pointer, n a number, *k behind one so many of it, as in pn or p*3n"
  }
  return "a word is misspelt"
}
function kinds_of(kinds,   i, list) {
  for (i = 1; i < length(kinds); i++) list = list ", " shown[substr(kinds, i, 1)]
  sub(/^,/, ":", list)
  return list
}
function of_number(   kinds, i) {
  if (word[1] == "type") return "in a shape * is followed by how many, in decimal digits"
  kinds = follows[word[1]]
  for (i = 1; i < length(kinds); i++)
    if (substr(kinds, i, 1) == "n" && (word[i + 1] !~ /^[0-9]+$/ || length(word[i + 1]) > 20 || word[i + 1] + 0 >= 18446744073709551615)) break
  return "\"" word[i + 1] "\" is no number: 1 to 20 decimal digits, below 2^64, without a sign"
}
function of_limit() {
  if (word[1] in limits) return word[1] " takes " limits[word[1]]
  if (word[1] ~ /^g(load|store)$/) return "there are " (globals ? globals : 1) " globals, numbered from 0; a line `globals n` says how many"
  if (word[1] ~ /^(load|store)$/) return "a field's number is at most 65535"
  if (word[1] == "type") return "there are at most 64 types, each of 1 to 65536 fields"
  if (word[1] == "go") return "there are at most 32 goroutines"
  return "the goroutines have at most 200000 statements together, repetitions written out"
}
function of_nesting() {
  if (word[1] ~ /^(procs|workers|arena|globals|gogc|minheap|type)$/) return "settings and types stand before the first go"
  if (word[1] == "go") return "a goroutine is open here: its end stands before the next go"
  if (word[1] == "repeat" || word[1] in follows && word[1] != "end") return "a statement stands between `go name` and `end`, and each go and each repeat has its end; at most 8 repeats are open at once"
  return "at the text's end a goroutine or a repeat is open, or this end closes none"
}
