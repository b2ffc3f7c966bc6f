# A part of goheap.sh: draws a run, as an SVG, from its script (the first file) and the lines of goheap_steps (the second). Each actor has a
# lane, and turns go down: a row for each turn at which something happens, so that the drawing is not to scale in turns. Bands show the phases of the collector. These are told by the order in which the coordinator stores the phase,
# which is a stop, marking, and a stop again; then off, where the marking of the cycle has ended meanwhile, and else marking again. The last one
# says that all is over, and is no band.
# Beneath the lanes stands the arena, where the marking of each cycle has ended and where the cycle is swept: a strip of all pages, and the slots of each span.
# It is tested (tools/check_steps.sh), and nothing is proved of it.
function escaped(text) { gsub(/[\001-\037\177]/, "?", text); gsub(/&/, "\\&amp;", text); gsub(/</, "\\&lt;", text); return text }
# From the turn of this row on, the phase is another.
function change(row, to) { if (row > from) bands = bands band(from, row, phase); from = row; phase = to }
function band(top, end, name) {
  if (name == "off") return ""
  return sprintf("<rect class=\"%s\" x=\"%d\" y=\"%d\" width=\"%d\" height=\"%d\"/><text class=\"phase\" x=\"%d\" y=\"%d\">%s</text>\n", name, left - 66, y(top), right - left + 66, (end - top) * high, left - 62, y(top) + 12, name == "mark" ? "marking" : "stop")
}
function y(row) { return 56 + row * high }
function x(actor) { return left + place[actor] * wide }
function put(class, actor, row, text) { body = body sprintf("<text class=\"%s\" x=\"%d\" y=\"%d\">%s</text>\n", class, x(actor) + 12, y(row) + 12, escaped(text)) }
function dot(class, actor, row) { body = body sprintf("<circle class=\"%s\" cx=\"%d\" cy=\"%d\" r=\"3\"/>\n", class, x(actor), y(row) + 8) }
BEGIN { high = 17; wide = 230; left = 140; edge = 14; few = 3; moments = 0; phase = "off"; rows = 0; depth = 0 }
# The statements of the script, with their repetitions written out.
FILENAME == ARGV[1] {
  sub(/\r$/, "")
  if (FNR == 1 && sub(/^# */, "")) title = $0
  if ($1 ~ /^#/ || NF == 0 || title == $0) next
  if ($1 == "go") { goroutine = $2; many = 0 }
  else if ($1 == "repeat") { depth++; times[depth] = $2; begins[depth] = many }
  else if ($1 == "end" && depth > 0) { until = many; for (k = 1; k < times[depth]; k++) for (i = begins[depth] + 1; i <= until; i++) statement[goroutine, ++many] = statement[goroutine, i]; depth-- }
  else if ($1 != "end" && goroutine) { $1 = $1; statement[goroutine, ++many] = $0 }
  next
}
/^turns / { turns = $2; next }
# A line of the arena belongs to the turn before it, which ended the marking of a cycle or its sweep.
/^[0-9]+ pages? / { sub(/^[0-9]+ /, ""); shown[moments, ++many_shown[moments]] = $0; next }
/^[0-9]+ [a-z]+ [0-9]+ step/ {
  turn[rows] = $1; step[rows] = $5; actor[rows] = $3; kind[$3] = $2; line[rows] = $0
  sub(/^[^:]*: */, "", line[rows]); sub(/:$/, "", step[rows])
  if ($3 > last) last = $3
  if (line[rows] ~ /^cycle [0-9]+ is /) { split(line[rows], word, " "); moment[++moments] = "Cycle " word[2] (word[4] ~ /^swept/ ? " is swept" : " is marked") ", turn " $1 ":" }
  rows++
}
END {
  for (a = 0; a <= last; a++) if (a in kind) place[a] = lanes++
  right = left + lanes * wide + 20
  for (row = 0; row < rows; row++) draw(row)
  change(rows, "off")
  bottom = y(rows) + 47 + (shades ? 17 : 0)
  if (moments > 0) { write_at("plain", edge, bottom + 8, "The arena where a cycle's marking has ended, and where it is swept: pages, spans with their class, and slots."); bottom += 24 }
  for (m = 1; m < moments; m += 2) cycle(m)
  if (moments > 0) legend()
  print "<svg xmlns=\"http://www.w3.org/2000/svg\" width=\"" right + 20 "\" height=\"" bottom "\" font-family=\"sans-serif\" font-size=\"12\">"
  print "<style>.stop{fill:#d9d9d9}.mark{fill:#fdebd0}.phase{fill:#555;font-size:11px}.turn{fill:#777;font-size:10px;text-anchor:end}.lane{stroke:#aaa}.wait{stroke:#1f77b4;stroke-width:3}.acts{fill:#1f77b4}.shade{fill:#b35900}.plain{fill:#555}.head{font-weight:bold}.swept{fill:#8b0000;font-weight:bold}.small{fill:#333;font-size:10px}.pages,.free,.marked,.unmarked,.kept{stroke:#777}.pages{fill:#e3e3e3}.free{fill:white;stroke:#bbb}.marked{fill:#9ecae1}.unmarked{fill:url(#hatch)}.kept{fill:#eaf3fa}.page{stroke:#999}</style>"
  print "<defs><pattern id=\"hatch\" width=\"6\" height=\"6\" patternUnits=\"userSpaceOnUse\"><rect width=\"6\" height=\"6\" fill=\"#fdeaea\"/><path d=\"M0 6L6 0\" stroke=\"#eab0a8\"/></pattern></defs>"
  print "<rect width=\"100%\" height=\"100%\" fill=\"white\"/>"
  print "<text x=\"14\" y=\"18\">" escaped(title) "</text>"
  printf "%s", bands
  for (a = 0; a <= last; a++) if (a in kind) {
    print "<text class=\"head\" x=\"" x(a) - 6 "\" y=\"44\">" kind[a] " " a "</text>"
    print "<line class=\"lane\" x1=\"" x(a) "\" y1=\"52\" x2=\"" x(a) "\" y2=\"" y(rows) "\"/>"
  }
  printf "%s", body
  printf "%s", below
  print "<text class=\"plain\" x=\"14\" y=\"" y(rows) + 18 "\">" turns " turns. A row is an event, and its height no time: the number at its left is the turn.</text>"
  print "<text class=\"plain\" x=\"14\" y=\"" y(rows) + 35 "\">A blue dot: a statement acts; the thick line leads to its answer.</text>"
  if (shades) print "<text class=\"plain\" x=\"14\" y=\"" y(rows) + 52 "\">A brown dot: a processor shades an object, in the barrier of its next store or where it scans a stack.</text>"
  print "</svg>"
}
function draw(row,   text, a, words, told, answer) {
  a = actor[row]
  text = line[row]
  body = body sprintf("<text class=\"turn\" x=\"%d\" y=\"%d\">%d</text>\n", left - 74, y(row) + 12, turn[row])
  if (text ~ /is swept/) { told = text; sub(/ is swept,/, " swept:", told); dot("swept", a, row); put("swept", a, row, told); return }
  if (kind[a] == "coordinator" && text ~ /marks [0-9]+$/) {
    change(row, text ~ /is done/ ? "off" : phase == "off" || phase == "mark" ? "stop" : is_marked ? "off" : "mark")
    if (phase == "off") is_marked = 0
    dot("plain", a, row)
    put("plain", a, row, text ~ /is done/ ? "is done" : phase == "stop" ? "stops the world" : phase == "mark" ? "marking begins" : "the world goes on")
    return
  }
  if (text ~ /^cycle [0-9]+ is marked/) { dot("plain", a, row); put("plain", a, row, text); is_marked = 1; return }
  if (kind[a] == "worker") { dot("plain", a, row); put("plain", a, row, text ~ /is done/ ? "is done" : "scanned " substr(text, index(text, "marks ") + 6) " words"); return }
  split(text, words, " ")
  if (words[1] == "shades") { shades = 1; dot("shade", a, row); put("shade", a, row, text); return }
  if (words[1] == "acts") { since[a] = row; dot("acts", a, row) }
  told = text
  if (sub(/^.*answers /, "", told)) {
    sub(/ marks [0-9]+$/, "", told)
    split(told, words, " ")
    answer = substr(told, length(words[1] words[2]) + 3)
    told = words[1] " " words[2] ": " ((words[1], words[2]) in statement ? statement[words[1], words[2]] : "") (answer == "done" ? "" : ", " answer)
    if (a in since && since[a] < row) body = body sprintf("<line class=\"wait\" x1=\"%d\" y1=\"%d\" x2=\"%d\" y2=\"%d\"/>\n", x(a), y(since[a]) + 8, x(a), y(row) + 8)
    put("acts", a, row, told)
    delete since[a]
  } else if (text ~ /is done/) { dot("plain", a, row); put("plain", a, row, "is done") }
}
function write_at(class, from, base, text) { below = below sprintf("<text class=\"%s\" x=\"%d\" y=\"%d\">%s</text>\n", class, from, base, escaped(text)) }
# A box of this class, with a text in it where that has room; a pointer that rests on it is shown the title.
function box(class, from, top, width, height, text, title) {
  below = below sprintf("<rect class=\"%s\" x=\"%.1f\" y=\"%d\" width=\"%.1f\" height=\"%d\"><title>%s</title></rect>\n", class, from, top, width, height, title)
  if (text != "" && length(text) * 6 + 6 <= width) write_at("small", from + 4, top + height - 4, text)
}
# The arena where the marking of a cycle has ended at the left, and where the cycle is swept at the right.
function cycle(m,   top, low, half) {
  top = bottom
  half = (right - edge - 30) / 2
  arena(m, edge, edge + half)
  low = bottom
  bottom = top
  arena(m + 1, right - half, right)
  if (bottom < low) bottom = low
}
# The arena at this moment, between these sides: its pages as a strip, and below that the slots of each span.
function arena(m, from, to,   i, of, class, many, page, width) {
  write_at("head", from, bottom + 12, moment[m])
  split(shown[m, many_shown[m]], of, ": ")
  many = first_of(of[1]) + pages_of(of[1])
  page = (to - from) / many
  for (i = 1; i <= many_shown[m]; i++) {
    split(shown[m, i], of, ": ")
    class = of[2] == "free" ? "free" : substr(of[2], 1, index(of[2], ",") - 1)
    width = pages_of(of[1]) * page
    if (width < length(class) * 6 + 6) sub(/^class /, "", class)
    box(of[2] == "free" ? "free" : "pages", from + first_of(of[1]) * page, bottom + 18, width, 16, class, of[1] ": " of[2])
  }
  if (page >= 4) for (i = 1; i < many; i++) below = below sprintf("<path class=\"page\" d=\"M%.1f %dv5\"/>\n", from + i * page, bottom + 34)
  bottom += 44
  for (i = 1; i <= many_shown[m]; i++) {
    split(shown[m, i], of, ": ")
    if (of[2] != "free") span(of[1] ": " of[2], of[3], from, to)
  }
  bottom += 8
}
# The first of the pages, and how many they are, of `page 3` or `pages 3 to 5`.
function first_of(text,   word) { split(text, word, " "); return word[2] }
function pages_of(text,   word) { return split(text, word, " ") == 4 ? word[4] - word[2] + 1 : 1 }
# The slots of a span: a cell for each, with the names of the objects where there is room for all; of many free ones the first few.
function span(head, slots, left_side, right_side,   runs, run, i, k, word, from, to, name, cells, longest, cell, at) {
  write_at("small", left_side, bottom + 10, head)
  runs = split(slots, run, ", ")
  longest = 3
  for (i = 1; i <= runs; i++) {
    split(run[i], word, " ")
    if (word[1] == "free") { cells += 2 * few; continue }
    to = word[4] != "" ? word[4] : word[2]
    if (length(to) > longest) longest = length(to)
    cells += number_in(to) - number_in(word[2]) + 1
  }
  cell = 6 * longest + 8
  if (cells * cell > 3 * (right_side - left_side)) cell = 10
  at = left_side
  for (i = 1; i <= runs; i++) {
    split(run[i], word, " ")
    from = word[1] == "free" ? 1 : number_in(word[2])
    to = word[1] == "free" ? (word[2] > few ? few : word[2]) : number_in(word[4] != "" ? word[4] : word[2])
    for (k = from; k <= to; k++) {
      name = word[1] == "free" ? "" : substr(word[2], 1, index(word[2], ".")) k
      at = room(at, cell, left_side, right_side)
      box(word[1], at, bottom + 14, cell - 2, 14, name, word[1] (name != "" ? " " name : ""))
      at += cell
    }
    if (word[1] == "free" && word[2] > few) {
      name = "and " word[2] - few " more free"
      at = room(at, 6 * length(name) + 10, left_side, right_side)
      write_at("small", at + 4, bottom + 24, name)
      at += 6 * length(name) + 10
    }
  }
  bottom += 34
}
# Where so much stands next: here, or in the next line.
function room(at, width, left_side, right_side) {
  if (at + width <= right_side) return at
  bottom += 18
  return left_side
}
function number_in(name) { return substr(name, index(name, ".") + 1) + 0 }
function legend(   i, word, told, at) {
  split("marked unmarked kept free", word, " ")
  told["marked"] = "marked: the cycle keeps it"; told["unmarked"] = "not marked: its sweep frees it"; told["kept"] = "kept, its mark cleared, or made since"; told["free"] = "free"
  at = edge
  for (i = 1; i <= 4; i++) { box(word[i], at, bottom, 12, 12, "", word[i]); write_at("plain", at + 18, bottom + 10, told[word[i]]); at += 6.5 * length(told[word[i]]) + 40 }
  write_at("plain", edge, bottom + 30, "A marked object that no script reaches any more is floating garbage: a later cycle does not mark it, and frees it.")
  bottom += 44
}
