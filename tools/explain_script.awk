# Reads the table of a script's words and then a script, and shows the line `place`, which was refused for `reason`, with the field
# that breaks the rule and the rule.

FNR == NR {
  split($0, columns, "|")
  fields_of[columns[1]] = columns[2]
  since[columns[1]] = columns[3] == "" ? 1 : columns[3]
  next
}

{ lines = FNR }

FNR == 1 {
  version = substr($0, 5)
  set_limits()
}

(place == 0 || FNR <= place) && !/^#/ { note_line() }

FNR == place {
  text = $0
  count = split($0, field, " ")
  if ($0 ~ /^ | $|  / || $0 == "") count = split_at_spaces($0)
}

END {
  if (place > 0) show_line()
  print "  " sentence()
}

# A range has another end since version 3, behind a slash.
function set_limits(    word) {
  for (word in fields_of) gsub(version + 0 >= 3 ? "[0-9]+/" : "/[0-9]+", "", fields_of[word])
}

# Keeps where each word stood before, which nodes there are, and the last timed line.
function note_line(    part) {
  split($0, part, " ")
  if (FNR < place || place == 0) {
    if (!(part[1] in first_at)) first_at[part[1]] = FNR
    if (!((part[1], part[2]) in first_of)) first_of[part[1], part[2]] = FNR
    if (part[1] == "node") nodes = nodes (nodes == "" ? "" : ", ") part[2]
    if (is_timed(part[1])) {
      timed_at = FNR
      timed_tick = part[2]
    }
  }
}

function is_timed(word) {
  return word != "end" && fields_of[word] ~ /^ *T=/
}

# Splits at each space, so that empty fields count.
function split_at_spaces(rest,    n, at) {
  n = 0
  while ((at = index(rest, " ")) > 0) {
    field[++n] = substr(rest, 1, at - 1)
    rest = substr(rest, at + 1)
  }
  field[++n] = rest
  return n
}

function show_line(    shown, bad, before) {
  if (place > lines) return
  shown = text
  gsub(/[^ -~]/, "?", shown)
  if (length(shown) > 160) shown = substr(shown, 1, 160) " .."
  printf "  %5d | %s\n", place, shown
  bad = bad_field()
  if (!bad) return
  for (i = 1; i < bad; i++) before += length(field[i]) + 1
  if (before < 160) printf "        | %" before "s%s\n", "", carets(length(field[bad]))
}

function carets(n,    marks) {
  for (i = 0; i < n && i < 40 || i == 0; i++) marks = marks "^"
  return marks
}

# The place of the first field that breaks the rule, or 0.
function bad_field(    wanted, many, i) {
  if (reason == "UnknownWord" || reason == "AfterEnd" || reason == "FirstLine") return 1
  if (reason == "Form") return empty_field()
  if (reason == "UnknownNode" || reason == "TooMany") return place > 0 ? place_of("^NO=") : 0
  if (reason == "Hex") return place_of("=hex$")
  if (reason == "FrameSize") return place_of("^(LEN|HEX)=")
  if (reason == "Order") return place_of("^T=")
  many = split(fields_of[field[1]], wanted, " ")
  for (i = 1; i <= many; i++) if (breaks(field[i + 1], wanted[i])) return i + 1
  return 0
}

# Whether a field breaks the rule on numbers or the one on their ranges. LEN has no range of its own, only a frame has.
function breaks(text, wanted) {
  if (wanted ~ /=hex$/) return 0
  if (reason == "Number") return !is_number(text)
  return reason == "OutOfRange" && wanted !~ /^LEN=/ && !is_within(text, wanted)
}

# The place of the first field whose name and range are of that form, or 0.
function place_of(form,    wanted, many, i) {
  many = split(fields_of[field[1]], wanted, " ")
  for (i = 1; i <= many; i++) if (wanted[i] ~ form) return i + 1
  return 0
}

function empty_field(    i) {
  for (i = 2; i <= count; i++) if (field[i] == "") return i
  return 0
}

function is_number(text) {
  return text ~ /^(0|[1-9][0-9]*)$/ && length(text) <= 10
}

function is_within(text, wanted,    ends, low) {
  sub(/.*=/, "", wanted)
  split(wanted, ends, "-")
  low = is_number(ends[1]) ? ends[1] + 0 : field[place_of("^" ends[1] "=")] + 1
  return text + 0 >= low && text + 0 <= ends[2] + 0
}

function name_of(bad,    wanted) {
  split(fields_of[field[1]], wanted, " ")
  return wanted[bad - 1]
}

# 'NO ID PLACE' of the fields of a word.
function names_of(word,    names) {
  names = fields_of[word]
  gsub(/=[^ ]*/, "", names)
  return names
}

function quoted(text) {
  gsub(/[^ -~]/, "?", text)
  return "`" (length(text) > 60 ? substr(text, 1, 60) ".." : text) "`"
}

# The rule that the line breaks, with its field and range.
function sentence(    bad, wanted) {
  bad = bad_field()
  wanted = name_of(bad)
  if (reason == "TooLong") return "a script has at most 1048576 octets"
  if (reason == "FirstLine") return first_line()
  if (reason == "AfterEnd") return "nothing but lines that begin with # may stand behind `end`, which is line " first_at["end"] blank()
  if (reason == "UnknownWord") return unknown_word()
  if (reason == "Form") return form()
  if (reason == "Number") return half(wanted, 1) " of " quoted(field[1]) " is a number, one to ten decimal digits without a leading zero, and " quoted(field[bad]) " is none" carriage_return()
  if (reason == "OutOfRange") return half(wanted, 1) " of " quoted(field[1]) " is " range(wanted) ", and " quoted(field[bad]) " is outside"
  if (reason == "Hex") return half(wanted, 1) " of " quoted(field[1]) " " hex()
  if (reason == "FrameSize") return frame_size()
  if (reason == "Twice") return twice()
  if (reason == "UnknownNode") return unknown_node()
  if (reason == "Order") return order()
  if (reason == "TooMany") return too_many()
  if (reason == "NoNode") return "a script has at least one `node` line, and none stands before `end`"
  if (reason == "NoEnd") return "a script ends with a line `end T`, and this one has none"
  return "docs/formats.md has the rule"
}

# The name, 1, or the range, 2, of a field such as 'N=16-255'.
function half(wanted, which,    halves) {
  split(wanted, halves, "=")
  return halves[which]
}

function range(wanted,    ends) {
  split(half(wanted, 2), ends, "-")
  return is_number(ends[1]) ? ends[1] " to " ends[2] : "above " ends[1] " and at most " ends[2]
}

function carriage_return() {
  return text ~ /\r$/ ? "; the line ends with a carriage return, and lines end with LF alone" : ""
}

function blank() {
  return text == "" ? "; a blank line counts too" : ""
}

function first_line() {
  if (lines == 0) return "the input is empty; the first line of a script is `t1s 1`, `t1s 2` or `t1s 3`"
  return "the first line of a script is `t1s 1`, `t1s 2` or `t1s 3`, exactly so" carriage_return()
}

function unknown_word() {
  if (text == "" || text == "\r") return "a blank line is refused; a line without effect begins with #" carriage_return()
  if (text ~ /^[ \t]/) return "a line begins with its word, and a blank stands before it"
  if (field[1] in since) return quoted(field[1]) " is a word since version " since[field[1]] ", and line 1 says that the script is of version " version
  return quoted(field[1]) " is no word of a script" (near == "" ? "" : "; the nearest is `" near " " names_of(near) "`" later(near)) carriage_return()
}

# What is said of a word that is none of this version.
function later(word) {
  return since[word] + 0 > version + 0 ? ", a word since version " since[word] : ""
}

function form(    many, wanted) {
  many = split(fields_of[field[1]], wanted, " ")
  return "the line is `" field[1] " " names_of(field[1]) "`, with one space before each field; behind the word stand " count - 1 " fields and not " many \
    (empty_field() ? ", as an empty one counts" : "")
}

function hex(    digits) {
  digits = field[bad_field()]
  sub(/\r$/, "", digits)
  if (field[1] == "fill") return "is two hex digits, and " quoted(digits) " is not" carriage_return()
  if (digits ~ /[^0-9A-Fa-f]/) return "has hex digits alone, and `" substr(digits, match(digits, /[^0-9A-Fa-f]/), 1) "` is none" carriage_return()
  return "has two hex digits for each octet, and " length(digits) " is an odd number of digits" carriage_return()
}

function frame_size(    octets) {
  octets = field[1] == "fill" ? field[bad_field()] : length(field[bad_field()]) / 2
  return "a frame has 14 to 1518 octets without its frame check sequence, and this one has " octets
}

function order() {
  if (field[1] == "end") return "`end` is above the tick of each timed line, and line " timed_at " has the tick " timed_tick
  return "timed lines stand in the order of their ticks, and line " timed_at " above has the tick " timed_tick
}

function too_many() {
  if (field[1] == "also") return "a node has at most three `also` lines, and three of node " field[2] " stand above"
  if (field[1] == "draw") return "a node has at most 64 `draw` lines, and 64 of node " field[2] " stand above"
  return "a script has at most 4096 timed lines, and as many stand above"
}

function twice(    wanted) {
  if (field[1] == "also") return "node " field[2] " has the ID " field[3] " already"
  split(fields_of[field[1]], wanted, " ")
  if (wanted[1] ~ /^NO=/) return quoted(field[1]) " may stand once for a node, and that of node " field[2] " stands in line " first_of[field[1], field[2]] " already"
  return quoted(field[1]) " may stand once, and stands in line " first_at[field[1]] " already"
}

function unknown_node() {
  if (place == 0) return "the script has no node of that number, which `" command "` names; its nodes are " nodes
  return "no `node` line of node " field[place_of("^NO=")] " stands above" (nodes == "" ? "" : "; above stand the nodes " nodes)
}
