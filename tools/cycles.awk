# A part of goheap.sh: a line for each cycle of a run, and one for all, from its script (the first file, of which nothing is needed) and the lines of
# `goheap_steps --trace` (the second, docs/TRACE.md). docs/PAUSES.md says what stands in it. It is tested (tools/check_cycles.sh), and
# nothing is proved of it.
FILENAME == "-" { next }
!begun_reading { begun_reading = 1; if ($0 != "trace 1") { print; is_bad = 1; exit } next }
$1 == "settings" {
  for (i = 2; i < NF; i += 2) setting[$i] = $(i + 1)
  procs = setting["procs"]; workers = setting["workers"]; roots = (setting["globals"] + 16 * setting["goroutines"]) * 8
  trigger = setting["gogc"] > 0 ? int(7 * goal_of(0) / 10) : "never"; phase = "off"; heap = 0; live = 0
  next
}
$1 == "turns" { turns = $2; next }
$1 == "broken" { turns = $3; if (is_open) unfinished(); next }
$3 == "heap" { heap = $4; next }
$3 == "trigger" { trigger = $4; next }
$3 == "bank" { banked($4, $2); next }
$3 == "shades" { if ($7 == "grey") grey += $6; next }
$3 == "claims" { grey++; next }
$3 == "scans" { by_workers += $4; next }
$3 == "acknowledges" { acknowledged[$2] = $4; last_ack = $1; next }
$3 == "page" { if ($NF == "in-sweep") spans[kind($2)]++; next }
$3 == "phase" { change($1, $4); next }
$3 == "begins" { number = $4; heap_begun = heap; next }
$3 == "marked" { heap_marked = heap; next }
$3 == "swept" { live = $10; told($1, $6, $8); next }
END { if (!is_bad && turns != "") all() }

function kind(actor) { return actor < procs ? "processor" : actor < procs + workers ? "worker" : "coordinator" }
function goal_of(bytes,   goal) { goal = bytes + int((bytes + roots) * setting["gogc"] / 100); return goal > setting["minheap"] ? goal : setting["minheap"] }
function banked(words, actor) {
  if (kind(actor) == "worker") earned += words - bank
  else if (kind(actor) == "processor") spent += bank - words
  else lapsed += bank - words
  bank = words
}
# The phase is another from this turn on. The first stop of a cycle opens it; a further one checks that its marking is over.
function change(turn, to) {
  if (phase == "stop") {
    asked += turn - since
    if (turn - since > longest) longest = turn - since
    stopped += turn - (last_ack > since ? last_ack : since)
    if (is_marking) check += turn - since; else open += turn - since
  } else if (phase == "mark") mark += turn - since
  else if (phase == "off" && to == "stop") begin(turn)
  if (to == "stop") stops++
  if (to == "mark") is_marking = 1
  if (to == "off") { is_marking = 0; off_at = turn }
  phase = to; since = turn
}
function begin(turn) {
  is_open = 1; begun_at = turn; trigger_then = trigger; goal_then = setting["gogc"] > 0 ? goal_of(live) : "none"
  open = mark = check = asked = stopped = longest = stops = grey = by_workers = earned = spent = lapsed = 0
  spans["processor"] = spans["worker"] = spans["coordinator"] = 0
}
function add(what, amount) { sum[what] += amount; return amount }
function line(head) {
  return head sprintf("turns %d open, %d mark, %d check, %d sweep; bytes %d->%d->%d, goal %s, trigger %s; stops %d, asked for %d, stopped %d, longest %d; words %d by workers, %d by processors; spans %d by processors, %d by workers, %d by coordinator; credit %d earned, %d spent, %d lapsed", open, mark, check, sweep, heap_begun, heap_marked, live, goal_then, trigger_then, stops, asked, stopped, longest, by_workers, by_processors, spans["processor"], spans["worker"], spans["coordinator"], earned, spent, lapsed)
}
# The cycle is swept.
function told(turn, kept, freed) {
  sweep = turn - off_at
  by_processors = grey - by_workers
  print line("cycle " number " @" begun_at ": marked " kept " freed " freed "; ")
  add("open", open); add("mark", mark); add("check", check); add("sweep", sweep); add("stops", stops); add("asked", asked); add("stopped", stopped)
  add("workers", by_workers); add("processors", by_processors); add("earned", earned); add("spent", spent); add("lapsed", lapsed); add("kept", kept); add("freed", freed)
  for (who in spans) add("spans " who, spans[who])
  if (longest > sum["longest"]) sum["longest"] = longest
  cycles++; is_open = 0
}
function unfinished() { print "cycle " number " @" begun_at ": not swept when the budget's turns were taken, " stops " stops so far" }
function all() {
  printf "all %d cycles of %d turns: freed %d; turns %d open, %d mark, %d check, %d sweep; stops %d, asked for %d, stopped %d, longest %d; words %d by workers, %d by processors; spans %d by processors, %d by workers, %d by coordinator; credit %d earned, %d spent, %d lapsed\n", cycles, turns, sum["freed"], sum["open"], sum["mark"], sum["check"], sum["sweep"], sum["stops"], sum["asked"], sum["stopped"], sum["longest"], sum["workers"], sum["processors"], sum["spans processor"], sum["spans worker"], sum["spans coordinator"], sum["earned"], sum["spent"], sum["lapsed"]
}
