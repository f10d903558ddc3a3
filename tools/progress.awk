# Reads the names of the crates in the order in which they are built, and then what the toolchain has said so far. Writes a line
# for each crate that is proved, as 't1s_frame proved, 4 of 19', and last what is under way.

FNR == NR {
  place[$1] = NR
  crates = NR
  next
}

/^rt: chose --jobs [0-9]+ for / {
  crate = $NF
  checked = ""
}

/^so far: [0-9]+ of [0-9]+ functions/ { checked = ", " $3 " of " $5 " functions" }

/^rt: .*waiting for / { waits = 1 }

/^logic=proved / && crate in place {
  print crate " proved, " place[crate] " of " crates
  crate = ""
  waits = 0
}

END {
  if (crate in place) print "proving " crate ", " place[crate] " of " crates checked
  else if (waits) print "waiting for another run of the toolchain"
  else print "reading the sources"
}
