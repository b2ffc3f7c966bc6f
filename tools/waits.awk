# A part of goheap.sh: says what each actor was waiting for when a run was broken off, from its script (the first file) and the lines of
# `goheap_steps --waits` (the second, docs/TRACE.md). It is tested (tools/check_steps.sh), and nothing is proved of it.
function say(text) { gsub(/[^ -~]/, "?", text); print "goheap.sh: " text }
# The statements of the script, with their repetitions written out, and which processor runs each goroutine.
FILENAME == ARGV[1] {
  sub(/\r$/, "")
  if ($1 ~ /^#/ || NF == 0) next
  if ($1 == "procs") procs = $2 + 0
  if ($1 == "workers") workers = $2 + 0
  if ($1 == "globals") globals = $2 + 0
  if ($1 == "go") { goroutine = $2; order[goroutines++] = $2; many[goroutine] = 0 }
  else if ($1 == "repeat") { depth++; times[depth] = $2; begins[depth] = many[goroutine] }
  else if ($1 == "end" && depth > 0) { until = many[goroutine]; for (k = 1; k < times[depth]; k++) for (i = begins[depth] + 1; i <= until; i++) statement[goroutine, ++many[goroutine]] = statement[goroutine, i]; depth-- }
  else if ($1 != "end" && goroutine) { $1 = $1; statement[goroutine, ++many[goroutine]] = $0 }
  next
}
$1 == "broken" { turns = $3; phase = $5; stop = $6; lock = $8; want = $10; begun = $12; swept = $14; claimed = $16; buffers = $18; next }
$1 == "actor" { steps[$2] = $4; ack[$2] = $6; is_done[$2] = $7 == "done"; actors++; next }
$1 == "goroutine" { answered[$2] = $4; scanned[$2] = $6; next }
END {
  if (turns == "") exit
  if (!procs) procs = 1
  if (!workers) workers = 1
  if (!globals) globals = 1
  for (a = 0; a < actors; a++) say(kind(a) ", " steps[a] " of the turns: " (is_done[a] ? "is done" : a < procs ? of_processor(a) : a < procs + workers ? of_worker(a) : of_coordinator()))
}
function kind(a) { return (a < procs ? "processor " : a < procs + workers ? "worker " : "coordinator ") a }
function of_stop(a) { return ack[a] == stop ? "stands in stop " stop ", and waits until the coordinator lets the world run" : "" }
# The goroutine whose turn it is: of those that this processor runs, the first with the fewest answers that has not ended.
function turn_of(a,   i, g, best) {
  for (i = a; i < goroutines; i += procs) { g = order[i]; if (scanned[g] == "end") continue; if (best == "" || answered[g] < answered[best]) best = g }
  return best
}
function of_processor(a,   g, n, text) {
  if (phase == "stop" && ack[a] == stop) return of_stop(a)
  g = turn_of(a)
  if (g == "") return "has no goroutine left, and leaves"
  n = answered[g] + 1
  if (n > many[g]) text = "ends " g
  else text = "is at " g " " n ", " statement[g, n]
  if (phase == "stop") return text ", and has not come to stop " stop " yet"
  if (lock > 0 && lock != a + 1) text = text "; " kind(lock - 1) " has the heap's lock"
  if (statement[g, n] == "gc" || want > 0) text = text "; " (swept < begun ? "cycle " begun " is not swept yet" : want > 0 ? "a cycle is asked for, which the coordinator has not begun" : "no cycle is under way")
  return text
}
function of_worker(a) {
  if (phase == "stop") return ack[a] == stop ? of_stop(a) : "has not come to stop " stop " yet"
  if (phase == "mark") return claimed < globals ? "marks: global " claimed " of " globals " is to be scanned" : buffers > 0 ? "marks: " buffers " buffers have grey objects" : "looks for a grey object"
  if (swept < begun) return "sweeps the spans of cycle " begun
  return "looks for a span to sweep, and there is none"
}
function of_coordinator(   a, list, i) {
  if (phase == "stop") {
    for (a = 0; a < procs + workers; a++) if (ack[a] != stop && ack[a] != "gone") list = list ", " kind(a)
    return list == "" ? "all have come to stop " stop ", and it goes on" : "waits in stop " stop " for" substr(list, 2)
  }
  if (phase == "mark") {
    if (claimed < globals) return "waits until the globals are scanned: " claimed " of " globals " are claimed"
    for (i = 0; i < goroutines; i++) if (scanned[order[i]] != "end" && scanned[order[i]] < begun) list = list ", " order[i]
    if (list != "") return "waits until the stacks are scanned of" substr(list, 2)
    return buffers > 0 ? "waits until " buffers " buffers are empty" : "finds that marking is over"
  }
  if (swept < begun) return "sees to it that cycle " begun " is swept"
  return want > 0 ? "is to begin a cycle" : "waits until a cycle is asked for, or all processors are done"
}
