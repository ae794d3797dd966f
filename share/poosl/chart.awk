# Draws the trace that it reads as a sequence chart: a lifeline for a process, an arrow for a message, a dot
# for an action of one process, a gap for time that passes. From top to bottom is the order of the trace.
# -v form=page gives a page with the chart in pieces that go onto a sheet each, form=svg the chart alone;
# CHARTED in the environment is what the page says of the run.

BEGIN {
  # sizes are in pixels; letters of the two sizes of labels are as wide as this
  LETTER = 6.7; SMALL = 5.5
  LEFT = 30; TOP = 8
  count = 0; lanes = 0; ending = ""; wrong = ""
}

NR == 1 {
  if ($0 !~ /^poosl-(trace|drive) [0-9]+( [0-9]+)*$/) refuse("line 1 does not begin a trace")
  next
}
wrong != "" { next }
ended { if ($1 != "offer") refuse("line " NR " stands behind the end"); next }
$1 !~ /^[0-9]+$/ { refuse("line " NR " is none of a trace"); next }
$2 == "time" && NF == 3 { passes++; event("time"); passed[count] = $3; next }
($2 == "end" || $2 == "deadlock" || $2 == "stop") && NF == 2 { ended = 1; event($2); next }
$2 == "refused" && NF == 5 { ended = 1; event("refused"); said[count] = "choice " $3 " of " $5 " offers"; next }
$2 == "fault" && NF == 5 { ended = 1; event("trouble"); from[count] = lane($4); said[count] = "fault " $3 " " $5; next }
($2 == "spent" || $2 == "high") && NF == 4 { ended = 1; event("trouble"); from[count] = lane($3); said[count] = $2 " " $4; next }
NF == 6 && $4 !~ /#/ {
  steps++; event("step")
  from[count] = lane($4); said[count] = $5 " " $6; chosen()
  next
}
$4 ~ /#/ && $6 == "!" && match($0, / -> [A-Za-z0-9_.]+$/) {
  messages++; event("message")
  to[count] = substr($0, RSTART + 4)
  # what stands between the `!` and the arrow; strings in it may have blanks
  said[count] = substr($0, 1, RSTART - 1)
  sub(/^[^ ]+ [^ ]+ [^ ]+ [^ ]+ [^ ]+ ! /, "", said[count])
  from[count] = lane($5); to[count] = lane(to[count]); chosen()
  talk(from[count], to[count])
  next
}
{ refuse("line " NR " is none of a trace") }

function refuse(why) { if (wrong == "") wrong = why }
function event(kind) { count++; sort[count] = kind; clock[count] = $1; row[count] = NR; text[count] = $0 }
function chosen() { if ($2 > 1) choice[count] = $3 " of " $2 }
function lane(path) {
  if (!(path in number)) { number[path] = ++lanes; name[lanes] = path; weight[lanes] = 0 }
  return number[path]
}
function talk(a, b,   low, high) {
  low = a < b ? a : b; high = a < b ? b : a
  if (!((low, high) in pair)) { pair[low, high] = ++pairs; one[pairs] = low; other[pairs] = high; times[pairs] = 0 }
  times[pair[low, high]]++; weight[a]++; weight[b]++
}

# --- The order of the lanes: those who talk to each other stand close. `place` has the place of each lane,
# 0 where it has none yet; `most` is the last one.

# how far all messages go, taken together
function reach(   i, sum, far) {
  sum = 0
  for (i = 1; i <= pairs; i++)
    if (place[one[i]] && place[other[i]]) {
      far = place[one[i]] - place[other[i]]
      sum += times[i] * (far < 0 ? -far : far)
    }
  return sum
}
function take_out(it,   i) {
  for (i = 1; i <= lanes; i++) if (place[i] > place[it]) place[i]--
  place[it] = 0; most--
}
function put_in(it, at,   i) {
  for (i = 1; i <= lanes; i++) if (place[i] >= at) place[i]++
  place[it] = at; most++
}
# puts a lane where messages go least far, and there as far right as may be
function settle(it,   at, best, least, far) {
  least = -1
  for (at = most + 1; at >= 1; at--) {
    if (lanes > 150 && at != 1 && at != most + 1) continue
    put_in(it, at); far = reach(); take_out(it)
    if (least < 0 || far < least) { least = far; best = at }
  }
  put_in(it, best)
}
function next_lane(   i, it, bond, best, most_bound) {
  most_bound = -1
  for (i = 1; i <= lanes; i++) bound[i] = 0
  for (i = 1; i <= pairs; i++) {
    if (place[one[i]]) bound[other[i]] += times[i]
    if (place[other[i]]) bound[one[i]] += times[i]
  }
  for (it = 1; it <= lanes; it++) {
    bond = bound[it] * 1e6 + weight[it]
    if (!place[it] && bond > most_bound) { most_bound = bond; best = it }
  }
  return best
}
function order(   i, before, round, to_right) {
  most = 0
  for (i = 1; i <= lanes; i++) place[i] = 0
  for (i = 1; i <= lanes; i++) settle(next_lane())
  for (round = 1; round <= 4 && lanes <= 60; round++) {
    before = reach()
    for (i = 1; i <= lanes; i++) { take_out(i); settle(i) }
    if (reach() == before) break
  }
  # most arrows, and else the first, go to the right
  to_right = 0
  for (i = count; i >= 1; i--)
    if (sort[i] == "message") {
      to_right += (place[from[i]] < place[to[i]]) ? 1 : -1
      before = place[from[i]] < place[to[i]]
    }
  if (messages && (to_right < 0 || (to_right == 0 && !before)))
    for (i = 1; i <= lanes; i++) place[i] = lanes + 1 - place[i]
  for (i = 1; i <= lanes; i++) at_place[place[i]] = i
}

# --- Where everything stands.

function width_of(label) { return length(label) * LETTER + 26 }

# how wide it is between lanes: as labels want, within limits; `gap[p]` is right of place p
function spread(   i, p, q, low, high, span, has, want, longest, it) {
  longest = 0
  for (i = 1; i <= lanes; i++) { it = fold(name[i]); if (it > longest) longest = it }
  for (p = 1; p < lanes; p++) gap[p] = longest * LETTER * 1.1 + 22 > 92 ? longest * LETTER * 1.1 + 22 : 92
  for (span = 1; span < lanes && span <= 3; span++)
    for (i = 1; i <= count; i++) {
      if (sort[i] != "message") continue
      low = place[from[i]]; high = place[to[i]]
      if (low > high) { p = low; low = high; high = p }
      if (high - low != span) continue
      want = width_of(said[i]); if (want > 230 * span) want = 230 * span
      has = 0
      for (q = low; q < high; q++) has += gap[q]
      if (want > has) for (q = low; q < high; q++) gap[q] += (want - has) / span
    }
  if (!lanes) return
  # the clock at the left, the choices at the right
  longest = 5
  for (i = 1; i <= count; i++) if (length(clock[i]) > longest) longest = length(clock[i])
  it = fold(name[at_place[1]]) * LETTER * 0.55 + 8
  x[at_place[1]] = int(LEFT + longest * LETTER + (it > 36 ? it : 36))
  for (p = 2; p <= lanes; p++) x[at_place[p]] = int(x[at_place[p - 1]] + gap[p - 1] + 0.5)
  wide = x[at_place[lanes]] + 92 + 66
  clocks = LEFT + longest * LETTER - 8
}

# The lines of a lane's name: it is broken at its dots where it is long. Gives the length of the longest.
function fold(path,   parts, n, i, line, longest) {
  folded = 0; longest = 0
  n = split(path, parts, ".")
  line = ""
  for (i = 1; i <= n; i++) {
    if (line != "" && length(line) + length(parts[i]) > 12) { fold_line[++folded] = line; line = "" }
    line = line parts[i] (i < n ? "." : "")
  }
  fold_line[++folded] = line
  for (i = 1; i <= folded; i++) if (length(fold_line[i]) > longest) longest = length(fold_line[i])
  if (folded > deepest) deepest = folded
  return longest
}

function height(i,   much) {
  if (sort[i] == "message") return 25
  if (sort[i] == "step") return 14
  if (sort[i] == "time") {
    much = 20 + 6 * log(1 + passed[i]) / log(2)
    return much > 64 ? 64 : int(much)
  }
  return sort[i] == "trouble" ? 30 : 44
}

# --- What is drawn.

function safe(s) {
  gsub(/&/, "\\&amp;", s); gsub(/</, "\\&lt;", s); gsub(/>/, "\\&gt;", s); gsub(/"/, "\\&quot;", s)
  return s
}
function cut(label, room) {
  room = int(room / LETTER)
  if (room < 4) room = 4
  return length(label) <= room ? safe(label) : safe(substr(label, 1, room - 1)) "&#8230;"
}
function tip(i) { return "<title>line " row[i] ": " safe(text[i]) "</title>" }

function draw_lanes(   p, i, l) {
  print "<g id=\"lanes\">"
  printf "<text class=\"side\" x=\"%d\" y=\"%d\" text-anchor=\"end\">clock</text>\n", clocks, TOP + 12
  if (choices) printf "<text class=\"side\" x=\"%d\" y=\"%d\" text-anchor=\"end\">choice</text>\n", wide - 8, TOP + 12
  for (p = 1; p <= lanes; p++) {
    i = at_place[p]
    l = fold(name[i]) * LETTER * 1.1 + 12
    printf "<g class=\"lane\"><title>%s</title><rect x=\"%.1f\" y=\"%d\" width=\"%.1f\" height=\"%d\" rx=\"4\"/>", name[i], x[i] - l / 2, TOP - 2, l, 6 + 14 * deepest
    for (l = 1; l <= folded; l++) printf "<text x=\"%d\" y=\"%d\">%s</text>", x[i], TOP + 12 + 14 * (l - 1 + (deepest - folded) / 2), fold_line[l]
    print "</g>"
  }
  print "</g>"
}

# a gap of each height that there is, for rows to use: the lifelines are dashed in it
function draw_gaps(   i, p, high, dashed, drawn) {
  print "<defs>"
  for (i = 1; i <= count; i++) {
    high = height(i)
    if (sort[i] != "time" || high in drawn) continue
    drawn[high] = 1
    dashed = ""
    for (p = 1; p <= lanes; p++) dashed = dashed "M" x[at_place[p]] " 0v" high
    printf "<g id=\"gap%d\"><rect class=\"gap\" x=\"%d\" width=\"%d\" height=\"%d\"/><path class=\"wait\" d=\"%s\"/></g>\n", high, clocks + 12, wide - clocks - 84, high, dashed
  }
  print "</defs>"
}

# the lifelines of the rows `first` to `last`, which end where the run does
function draw_lifelines(first, last,   p, down, lines) {
  down = top_of[last] + height(last) - (sort[last] ~ /^(message|step|time)$/ ? 0 : height(last) - 12)
  for (p = 1; p <= lanes; p++) lines = lines "M" x[at_place[p]] " " top_of[first] "V" down
  print "<path class=\"life\" d=\"" lines "\"/>"
}

function draw_message(i, y,   a, b, way, span) {
  a = x[from[i]]; b = x[to[i]]
  way = a < b ? 1 : -1
  span = (b - a) * way
  printf "<g class=\"message\">%s<path class=\"arrow\" d=\"M%d %dH%d\"/>", tip(i), a, y + 18, b
  printf "<path class=\"head\" d=\"M%d %dl%d -4v8z\"/>", b, y + 18, -8 * way
  printf "<text x=\"%d\" y=\"%d\">%s</text></g>\n", (a + b) / 2, y + 13, cut(said[i], span - 8)
}

function draw_step(i, y) {
  printf "<g class=\"step\">%s<circle%s cx=\"%d\" cy=\"%d\" r=\"3\"/><text x=\"%d\" y=\"%d\">%s</text></g>\n", \
    tip(i), said[i] ~ /^expire/ ? " class=\"over\"" : "", x[from[i]], y + 7, x[from[i]] + 7, y + 10, said[i]
}

function draw_end(i, y,   p, how, mark, at) {
  how = sort[i]; at = clock[i]
  mark = (how == "deadlock" || how == "trouble" || how == "refused") ? "bad" : "good"
  printf "<g class=\"ending %s\">%s", mark, tip(i)
  for (p = 1; p <= lanes; p++) {
    if (how == "end") printf "<path d=\"M%d %dh14\"/>", x[at_place[p]] - 7, y + 12
    if (how == "deadlock") printf "<path d=\"M%d %dl10 10m0 -10l-10 10\"/>", x[at_place[p]] - 5, y + 8
    if (how == "stop" || how == "refused") printf "<path class=\"on\" d=\"M%d %dv18\"/>", x[at_place[p]], y + 12
  }
  if (how == "trouble") {
    p = x[from[i]]
    printf "<path d=\"M%d %dl10 10m0 -10l-10 10\"/><text x=\"%d\" y=\"%d\">%s</text>", p - 5, y + 8, p + 12, y + 17, said[i]
  }
  else {
    if (how == "end") said[i] = "end: every process is done"
    if (how == "deadlock") said[i] = "deadlock: nothing can be done any more"
    if (how == "stop") said[i] = "stopped: the run could go on"
    if (how == "refused") said[i] = "no such choice: " said[i]
    printf "<text x=\"%d\" y=\"%d\">%s</text>", x[at_place[1]] - 7, y + 38, said[i]
  }
  print "</g>"
}

function draw_row(i, y) {
  # the clock stands where it is new, and the choice where there was one
  if (sort[i] != "time" && (i == 1 || sort[i - 1] == "time"))
    printf "<text class=\"clock\" x=\"%d\" y=\"%d\">%s</text>\n", clocks, y + (sort[i] == "message" ? 19 : sort[i] == "step" ? 11 : 17), clock[i]
  if (i in choice)
    printf "<text class=\"side\" x=\"%d\" y=\"%d\" text-anchor=\"end\">%s</text>\n", wide - 8, y + (sort[i] == "message" ? 21 : 10), choice[i]
  if (sort[i] == "message") draw_message(i, y)
  else if (sort[i] == "step") draw_step(i, y)
  else if (sort[i] == "time")
    printf "<g class=\"passing\">%s<use href=\"#gap%d\" y=\"%d\"/><text x=\"%d\" y=\"%d\">+%s</text></g>\n", tip(i), height(i), y, clocks, y + height(i) / 2 + 3, passed[i]
  else draw_end(i, y)
}

function draw(first, last,   i) {
  draw_lifelines(first, last)
  for (i = first; i <= last; i++) draw_row(i, top_of[i])
}

function style() {
  print "svg{font:11px ui-monospace,'DejaVu Sans Mono',Menlo,Consolas,monospace;background:#fff}"
  print ".lane rect{fill:#e8eef7;stroke:#8aa0c0}.lane text{font-size:12px;font-weight:bold;fill:#1d3557;text-anchor:middle}"
  print ".life{stroke:#9aa7b8;fill:none}.wait{stroke:#9aa7b8;fill:none;stroke-dasharray:2 4}.gap{fill:#f3f5f9}"
  print ".arrow{stroke:#1d4e89;stroke-width:1.4;fill:none}.head{fill:#1d4e89}"
  print ".message text{text-anchor:middle;fill:#12283f}"
  print ".message text,.step text,.ending text{paint-order:stroke;stroke:#fff;stroke-width:3px;stroke-linejoin:round}"
  print ".step circle{fill:#7c8794}.step circle.over{fill:#fff;stroke:#b06f00;stroke-width:1.6}.step text{font-size:9px;fill:#69727d}"
  print ".clock{text-anchor:end;font-weight:bold;fill:#222}.passing text{text-anchor:end;fill:#b06f00}.side{font-size:9px;fill:#8b939c}"
  print ".ending path{stroke:#555;stroke-width:1.6;fill:none}.ending path.on{stroke-dasharray:1 4}.ending text{fill:#444}"
  print ".bad path{stroke:#c1121f;stroke-width:2.2}.bad path.on{stroke-dasharray:1 4}.bad text{fill:#c1121f;font-weight:bold}"
}

function many(number, thing) { return number + 0 " " thing (number == 1 ? "" : "s") }
function summary(   how) {
  how = count ? sort[count] : ""
  how = how == "end" ? "every process is done" : how == "deadlock" ? "a deadlock" : how == "stop" ? "stopped" : \
    how == "trouble" ? said[count] " in " name[from[count]] : how == "refused" ? "no such choice" : "the trace breaks off"
  return many(messages, "message") ", " many(steps, "step") " of one process, " many(passes, "gap") " in which time passes; at " \
    (count ? clock[count] : 0) ": " how
}

# how many rows from `first` on go onto one sheet
function sheet(first, room,   i) {
  for (i = first; i < count; i++) if (top_of[i + 1] + height(i + 1) - top_of[first] > room) break
  return i
}

function page(   first, last, room, broad) {
  # (so that a piece fits onto a sheet of A4 and of Letter, what is broader being made smaller)
  broad = wide > 760
  room = broad ? 0.675 * (wide > 1040 ? wide : 1040) : 1.3 * (wide > 740 ? wide : 740)
  room -= above + 8
  print "<!doctype html>\n<html lang=\"en\">\n<head>\n<meta charset=\"utf-8\">\n<title>" safe(ENVIRON["CHARTED"]) "</title>\n<style>"
  print "body{margin:0;background:#fff;color:#222;font:14px system-ui,sans-serif}"
  print "header{padding:12px 16px;max-width:900px}h1{font-size:17px;margin:0 0 4px}p{margin:2px 0}header .how{color:#667;font-size:12px}"
  print ".chart{width:max-content}.names{position:sticky;top:0;background:#fff;border-bottom:1px solid #dde3ea}svg{display:block}"
  style()
  print "@page{margin:10mm" (broad ? ";size:landscape" : "") "}"
  print "@media screen{.again{display:none}}"
  print "@media print{.jump{display:none}header{padding:0 0 6px}.chart{width:auto}.names{display:none}section{break-inside:avoid}svg{max-width:100%;height:auto}section+section{break-before:page}}"
  print "</style>\n</head>\n<body>\n<header>\n<h1>" safe(ENVIRON["CHARTED"]) "</h1>"
  print "<p>" safe(summary()) ". <a class=\"jump\" href=\"#end\">To the end</a></p>"
  print "<p class=\"how\">From top to bottom in the order of the trace. Arrows are messages; dots are actions of one process, at a line and column of the model, rings delays that are over; in the gaps time passes. At the right stands which of several possible actions was taken. Point at anything for its line of the trace.</p>"
  print "</header>\n<div class=\"chart\">"
  printf "<div class=\"names\"><svg xmlns=\"http://www.w3.org/2000/svg\" width=\"%d\" height=\"%d\">\n", wide, above
  draw_lanes()
  draw_gaps()
  print "</svg></div>"
  # (the first sheet has the head of the page too)
  for (first = 1; first <= count; first = last + 1) {
    last = sheet(first, first == 1 ? room - 110 * (broad && wide > 1040 ? wide / 1040 : 1) : room)
    print "<section>"
    printf "<svg class=\"again\" width=\"%d\" height=\"%d\" viewBox=\"0 0 %d %d\"><use href=\"#lanes\"/></svg>\n", wide, above, wide, above
    printf "<svg width=\"%d\" height=\"%d\" viewBox=\"0 %d %d %d\">\n", wide, top_of[last] + height(last) - top_of[first], top_of[first], wide, top_of[last] + height(last) - top_of[first]
    draw(first, last)
    print "</svg>\n</section>"
  }
  print "<div id=\"end\"></div>\n</div>\n</body>\n</html>"
}

function alone(   down) {
  down = (count ? top_of[count] + height(count) : above) + 8
  printf "<svg xmlns=\"http://www.w3.org/2000/svg\" width=\"%d\" height=\"%d\" viewBox=\"0 0 %d %d\">\n", wide, down, wide, down
  print "<title>" safe(ENVIRON["CHARTED"]) ": " safe(summary()) "</title>\n<style>"
  style()
  printf "</style>\n<rect width=\"%d\" height=\"%d\" fill=\"#fff\"/>\n", wide, down
  draw_lanes()
  draw_gaps()
  if (count) draw(1, count)
  print "</svg>"
}

END {
  if (NR == 0) wrong = "there is no trace"
  if (wrong != "") { print "poosl chart: " wrong > "/dev/stderr"; exit 6 }
  deepest = 1; wide = 300; clocks = LEFT + 5 * LETTER
  for (i = 1; i <= count; i++) if (i in choice) choices = 1
  order(); spread()
  above = TOP + 8 + 14 * deepest
  y = above + 4
  for (i = 1; i <= count; i++) { top_of[i] = y; y += height(i) }
  if (form == "svg") alone(); else page()
}
