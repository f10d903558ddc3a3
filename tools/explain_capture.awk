# Reads the octets of a capture in hexadecimal (od -An -v -tx1), up to a little behind the offset `place`, and shows those round it
# and what may stand there; `reason` is why it was refused.

BEGIN {
  kinds = "1e 09 14 15 0a 0b 0e 0f 12 13 16 17 1a 1b 1c 1d"
  count = split(kinds, list, " ")
  for (i = 1; i <= count; i++) kind["" list[i]] = "nibble"
  kind["18"] = "J"; kind["11"] = "K"; kind["0d"] = "T"; kind["07"] = "R"
  kind["04"] = "H"; kind["08"] = "N"; kind["19"] = "S"
  kind["20"] = "gap"; kind["21"] = "end"; kind["22"] = "blur"
  state = "header"
}

{ for (i = 1; i <= NF; i++) octet[octets++] = $i }

END {
  show()
  for (at = 0; at < place && at < octets; at++) step(octet[at])
  print "  " sentence()
}

# The octets from 8 before the place to 8 behind it, the one at the place in brackets.
function show(    text, first, at) {
  first = place - 8
  if (first < 0) first = 0
  if (first) text = " .."
  for (at = first; at < octets && at <= place + 8; at++)
    text = text (at == place ? " [" octet[at] "]" : " " octet[at])
  if (place >= octets) text = text " [the input ends]"
  printf "  %7d |%s\n", first, text
}

# Takes an octet that stands where it may.
function step(value,    what) {
  what = kind[value]
  if (state == "header") {
    if (at == 5) state = "first"
  } else if (state == "count") {
    if (--left == 0) state = of == "gap" ? "item" : "between"
  } else if (what == "gap" || what == "blur") {
    state = "count"
    of = what
    left = 4
  } else if (what == "end") state = "over"
  else step_symbol(what)
}

# Takes a symbol of a burst.
function step_symbol(what) {
  if (what == state) run++
  else run = 1
  if (what == "H") state = state == "H" ? "H H" : "H"
  else if (what == "R" || what == "K" || what == "S") state = "closed"
  else if (what == "J" && state == "closed") { state = "J"; later = 1 }
  else {
    if (what == "J" && state != "J") later = 0
    state = what
  }
}

# What may stand at the place, in words.
function expected() {
  if (state == "header") return header()
  if (state == "first") return "an item, as 20 (a gap), 18 (J), 08 (N) or 22 (a blur), or 21, the end"
  if (state == "item") return "a burst, which begins with 18 (J) or 08 (N), 22 (a blur), or 21, the end"
  if (state == "between") return "20 (a gap) or 21, the end: a torn burst ends with its blur"
  if (state == "count") return "one of the four octets of the ticks of the " of
  if (state == "N") return run < 5 ? "08: a beacon is five N, and " run " stand here" : "20 (a gap) or 21, the end: a beacon is five N"
  if (state == "J") return lead()
  if (state == "H") return "04: two H begin a piece"
  if (state == "H H") return "a nibble, one of " kinds
  if (state == "nibble") return run < 9 ? "a nibble: a piece has at least 9, and " run " stand here" : "a nibble, or 0d (T)"
  if (state == "T") return "the closer of the piece: 07 (R), 11 (K) or 19 (S)"
  if (state == "closed") return "18 (J), 20 (a gap) or 21, the end"
  return "nothing: 21 has ended the capture"
}

function header() {
  if (place < 4) return "54 31 53 43 (T1SC), with which a capture begins" other_text()
  return place == 4 ? "01, the version" : "the number of the node, 00 to 1f"
}

# What another text looks like that was given in place of a capture.
function other_text() {
  if (octet[0] octet[1] octet[2] == "743173") return "; this looks like a script: run, check, json, capture and pcap read one"
  if (octet[0] octet[1] octet[2] octet[3] == "72656675") return "; this looks like the text of a refusal"
  return ""
}

function lead() {
  if (later) return run < 2 ? "18 (J), 20 (a gap) or 21, the end" : "18 (J), 04 (H), 20 (a gap) or 21, the end"
  return run < 2 ? "18 (J), 20 (a gap) or 21, the end: at least two J stand before the H of a piece" : "18 (J), 04 (H), 20 (a gap) or 21, the end"
}

function sentence() {
  if (reason == "CountZero") return "the four octets that end here are the ticks of a " of ", which lasts at least 1 tick here"
  if (reason == "GapTwice") return "a gap stands directly before, and two gaps in a row are one"
  if (reason == "TooLong") return "a capture has at most 1073741824 octets"
  if (reason == "AfterEnd") return "21 has ended the capture, and nothing stands behind it"
  if (reason == "BurstLong") return "a symbol too many: at most 4096 J stand in a row, a piece has at most 3056 nibbles, and a run at most 4096 pieces"
  if (reason == "Group") return "this octet is no 5B group of a symbol and not 20, 21 or 22; expected: " expected()
  return "expected: " expected()
}
