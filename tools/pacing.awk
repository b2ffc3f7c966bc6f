# A part of goheap.sh: draws what paces the cycles of a run, as an SVG, from its script (the first file) and the lines of `goheap_steps --pacing`
# (the second): the bytes of the heap and the trigger as the words say them, and the phases of the collector as bands.
# The goal stands in no word. It is computed from the trigger: the live bytes are those multiple of 8 of which gh_pacer's rule makes that
# trigger, and there is one such at the most, since 8 bytes more give a greater trigger.
# It is tested (tools/check_steps.sh), and nothing is proved of it.
BEGIN { left = 76; top = 62; wide = 1000; high = 320; gogc = 100; pages = 256; globals = 1; minheap = -1; many = 0; goroutines = 0 }
# The settings of the script. A time is a row: before the first turn the heap is empty, and the phase off.
FILENAME == ARGV[1] {
  sub(/\r$/, "")
  if (FNR == 1 && sub(/^# */, "")) { title = $0; next }
  if ($1 == "gogc") gogc = $2 + 0
  if ($1 == "minheap") minheap = $2 + 0
  if ($1 == "arena") pages = $2 + 0
  if ($1 == "globals") globals = $2 + 0
  if ($1 == "go") goroutines++
  next
}
/^turns / { turns = $2 + 0; next }
/^[0-9]+ heap / { many++; turn[many] = $1 + 0; heap[many] = $3 + 0; trigger[many] = $5; phase[many] = $7 }
END {
  if (minheap < 0) minheap = pages * 8192 / 4
  turn[0] = 0; heap[0] = 0; trigger[0] = many > 0 ? trigger[1] : "never"; phase[0] = "off"
  turn[many + 1] = turns; roots = (globals + 16 * goroutines) * 8
  measure()
  bands(); steps(); lines(); values()
  head(); axes()
  printf "%s%s", drawn, written
  legend()
  print "</svg>"
}
function goal_of(live,   more) { more = live + int((live + roots) * gogc / 100); return more > minheap ? more : minheap }
function trigger_of(live,   goal) { goal = goal_of(live); return live + int(7 * (goal > live ? goal - live : 0) / 10) }
# The live bytes of which this trigger was made, or -1.
function live_of(bytes,   low, above, middle) {
  low = 0; above = pages * 1024
  while (low < above) { middle = int((low + above) / 2); if (trigger_of(8 * middle) < bytes) low = middle + 1; else above = middle }
  return trigger_of(8 * low) == bytes + 0 ? 8 * low : -1
}
function known(row) { return trigger[row] != "never" && gogc > 0 }
# The live bytes by each trigger, and the most bytes that are drawn.
function measure(   i) {
  most = 1
  for (i = 0; i <= many; i++) {
    if (known(i) && (i == 0 || trigger[i] != trigger[i - 1])) { live[i] = live_of(trigger[i]); if (live[i] >= 0 && goal_of(live[i]) > most) most = goal_of(live[i]) }
    if (known(i) && trigger[i] + 0 > most) most = trigger[i] + 0
    if (heap[i] > most) most = heap[i]
  }
  up = even(most / 6); most = up * int((most + up - 1) / up); along = even(turns / 10)
}
# The least of 1, 2 and 5 times a power of ten that is not below this.
function even(least,   n) {
  n = 1
  while (n * 10 <= least) n *= 10
  return n >= least ? n : 2 * n >= least ? 2 * n : 5 * n >= least ? 5 * n : 10 * n
}
function x(at) { return left + wide * at / (turns > 0 ? turns : 1) }
function y(bytes) { return top + high - high * bytes / most }
function counted(n,   text) { text = n ""; if (length(text) > 3) return counted(substr(text, 1, length(text) - 3)) "," substr(text, length(text) - 2); return text }
function write_at(class, at, base, text) { written = written sprintf("<text class=\"%s\" x=\"%.1f\" y=\"%.1f\">%s</text>\n", class, at, base, text) }
function escaped(text) { gsub(/[\001-\037\177]/, "?", text); gsub(/&/, "\\&amp;", text); gsub(/</, "\\&lt;", text); return text }
# The phases that are not off, each with its name where that has room.
function bands(   i, from) {
  for (i = 1; i <= many + 1; i++) {
    if (i <= many && phase[i] == phase[i - 1]) continue
    if (phase[i - 1] == "stop" || phase[i - 1] == "mark") band(phase[i - 1], turn[from], turn[i])
    from = i
  }
}
function band(name, from, to,   width) {
  width = x(to) - x(from)
  drawn = drawn sprintf("<rect class=\"%s\" x=\"%.1f\" y=\"%d\" width=\"%.1f\" height=\"%d\"><title>%s, turns %s to %s</title></rect>\n", name, x(from), top, width, high, name == "mark" ? "marking" : "stop", counted(from), counted(to))
  if (width >= (name == "mark" ? 48 : 26)) write_at("phase", x(from) + 3, top + 12, name == "mark" ? "marking" : "stop")
}
# The heap as a line of steps.
function steps(   i, path) {
  path = sprintf("M%.1f %.1f", x(0), y(0))
  for (i = 1; i <= many; i++) if (heap[i] != heap[i - 1]) path = path sprintf("H%.1fV%.1f", x(turn[i]), y(heap[i]))
  drawn = drawn sprintf("<path class=\"heap\" d=\"%sH%.1f\"/>\n", path, x(turns))
}
# The trigger, from where it is stored until it is never, and the goal, until another trigger is stored.
function lines(   i, last) {
  last = -1
  for (i = 0; i <= many; i++) if (i in live) { if (last >= 0) line_of(last, i); last = i }
  if (last >= 0) line_of(last, many + 1)
}
function line_of(from, to,   end) {
  for (end = from + 1; end <= many && trigger[end] == trigger[from]; end++);
  level("trigger", "trigger", turn[from], turn[end], trigger[from], "trigger " counted(trigger[from]))
  if (live[from] >= 0) level("goal", "goal", turn[from], turn[to], goal_of(live[from]), "goal " counted(goal_of(live[from])) ", live " counted(live[from]))
}
function level(class, name, from, to, bytes, text) {
  drawn = drawn sprintf("<path class=\"%s\" d=\"M%.1f %.1fH%.1f\"><title>%s</title></path>\n", class, x(from), y(bytes), x(to), text)
  if (x(to) - x(from) >= 7 * length(text)) write_at(name "_text", x(from) + 4, y(bytes) - 5, text)
}
# The heap's bytes where a cycle begins, unless it begins below the trigger; where its marking has ended; and the least behind that until the
# next trigger is stored.
function values(   i, least, begun, ends) {
  for (i = 1; i <= many; i++) {
    if (phase[i - 1] == "off" && phase[i] == "stop") begun = i
    if (begun == i && (!known(i) || heap[i] >= trigger[i] + 0)) write_at("heap_text right", x(turn[i]) - 3, y(heap[i]) - 5, counted(heap[i]))
    if (phase[i - 1] == "stop" && phase[i] == "off") { ends = i; least = i; if (x(turn[i]) - x(turn[begun]) > 40) write_at("heap_text right", x(turn[i]) - 3, y(heap[i]) - 5, counted(heap[i])) }
    if (!ends) continue
    if (heap[i] < heap[least]) least = i
    if (known(i) && !known(i - 1)) { fallen(least); ends = 0 }
  }
}
function fallen(least) {
  if (x(turns) - x(turn[least]) < 40) { write_at("heap_text right", x(turn[least]) - 4, y(heap[least]) + 4, counted(heap[least])); return }
  write_at("heap_text", x(turn[least]) + 5, y(heap[least]) + 14, counted(heap[least]))
}
function head() {
  print "<svg xmlns=\"http://www.w3.org/2000/svg\" width=\"" left + wide + 30 "\" height=\"" top + high + 100 "\" viewBox=\"0 0 " left + wide + 30 " " top + high + 100 "\" font-family=\"sans-serif\" font-size=\"12\" role=\"img\">"
  print "<title>What paces the cycles of a run</title>"
  print "<style>.stop{fill:#d9d9d9}.mark{fill:#fdebd0}.phase{fill:#555;font-size:11px}.axis{stroke:#555}.grid{stroke:#ececec}.tick{fill:#555;font-size:11px}.right{text-anchor:end}.mid{text-anchor:middle}.plain{fill:#555}.heap,.trigger,.goal{fill:none}.heap{stroke:#1f77b4;stroke-width:1.5}.trigger{stroke:#b35900;stroke-width:1.5}.goal{stroke:#2e6b2e;stroke-width:1.5;stroke-dasharray:6 4}.heap_text{fill:#14507d}.trigger_text{fill:#b35900}.goal_text{fill:#2e6b2e}</style>"
  print "<rect width=\"100%\" height=\"100%\" fill=\"white\"/>"
  print "<text x=\"14\" y=\"20\">" escaped(title) "</text>"
  print "<text class=\"plain\" x=\"14\" y=\"38\">gogc " gogc ", minheap " counted(minheap) ", roots " counted(roots) " bytes. " counted(turns) " turns.</text>"
}
function axes(   n) {
  for (n = 0; n <= most; n += up) {
    if (n > 0) printf "<path class=\"grid\" d=\"M%d %.1fh%d\"/>\n", left, y(n), wide
    printf "<text class=\"tick right\" x=\"%d\" y=\"%.1f\">%s</text>\n", left - 6, y(n) + 4, counted(n)
  }
  for (n = 0; n <= turns; n += along) printf "<path class=\"axis\" d=\"M%.1f %dv4\"/><text class=\"tick mid\" x=\"%.1f\" y=\"%d\">%s</text>\n", x(n), top + high, x(n), top + high + 17, counted(n)
  written = written sprintf("<path class=\"axis\" fill=\"none\" d=\"M%d %dV%dH%d\"/>\n", left, top, top + high, left + wide)
  write_at("plain right", left - 6, top - 10, "bytes")
  write_at("plain right", left + wide, top + high + 34, "turns")
}
function legend(   base, at) {
  base = top + high + 58; at = left
  at = key("heap", at, base, "heap: the bytes of all slots with objects")
  at = key("trigger", at, base, "trigger: a new that reaches it asks for a cycle")
  at = key("goal", at, base, "goal")
  at = patch("stop", at, base, "the world stops")
  patch("mark", at, base, "marking")
  printf "<text class=\"plain\" x=\"%d\" y=\"%d\">Heap, trigger and phase are read from the words. The goal is computed from the trigger, by the rule of gh_pacer: it tells the live bytes, and these the goal.</text>\n", left, base + 24
}
function key(class, at, base, text) {
  printf "<path class=\"%s\" d=\"M%d %dh24\"/><text class=\"plain\" x=\"%d\" y=\"%d\">%s</text>\n", class, at, base - 4, at + 30, base, text
  return at + 30 + 6.1 * length(text) + 16
}
function patch(class, at, base, text) {
  printf "<rect class=\"%s\" x=\"%d\" y=\"%d\" width=\"14\" height=\"12\"/><text class=\"plain\" x=\"%d\" y=\"%d\">%s</text>\n", class, at, base - 10, at + 20, base, text
  return at + 20 + 6.1 * length(text) + 16
}
