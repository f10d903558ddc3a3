#!/bin/sh
# What is promised of a fit segment, on two runs of the program itself: eight nodes in ordinary use, and a frame for which the end of the
# script leaves room to the tick.
#
#   sh .ci/checks/ordinary_use.sh      from the top of the repository
set -u

scratch=$(mktemp -d) || exit 1
trap 'rm -rf "$scratch"' EXIT
trap 'exit 1' HUP INT TERM
program=crates/t1s/out/t1s
status=0

# The gate has built the program before; elsewhere this builds it.
./t1s check <examples/fit/script.t1s >/dev/null || { echo "NOT AS WANTED: the program was not built"; exit 1; }

# The line that is wanted of the text in a file, so many times.
lines() {
  found=$(grep -c "$3" "$2")
  if [ "$found" -eq "$4" ]; then
    echo "as wanted: $1"
  else
    echo "NOT AS WANTED: $1 ($found, wanted $4)"
    status=1
  fi
}

# Eight nodes, and 49 frames of each.
sh tools/ordinary_use.sh >"$scratch/eight"
"$program" check <"$scratch/eight" >"$scratch/fit"
lines 'the script is fit, with its span and bound' "$scratch/fit" '^fit 2 139724$' 1
"$program" run <"$scratch/eight" >"$scratch/report"
lines 'each node has sent its frames and received all others' "$scratch/report" \
  '^node [0-7] sent 49 full 0 jam [0-9]* drop 0 good 343 bad 0 clash 0$' 8
lines 'every offer has a wait' "$scratch/report" '^offer [0-9]* wait [0-9]*$' 392
"$program" capture 7 <"$scratch/eight" | "$program" decode >"$scratch/heard"
lines 'node 7 hears every frame of the others whole' "$scratch/heard" '^end 500000 .* good 343$' 1

# The first frame has to leave by tick 8300 + 76840 and is 12520 + 5 ticks on its way at most: the end is right behind that, and
# the other frame, which is offered a tick later, has one tick too little for the promise. It is delivered all the same.
printf 't1s 1\ncount 3\nnode 0 0 0\nnode 1 1 2\nnode 2 2 5\nfill 8300 1 60 00\nfill 8301 2 60 11\nend 97665\n' >"$scratch/room"
"$program" check <"$scratch/room" >"$scratch/fit"
lines 'the bound of the script whose end is reckoned by it' "$scratch/fit" '^fit 5 76840$' 1
"$program" run <"$scratch/room" >"$scratch/report"
lines 'the frame with room to the tick leaves and arrives' "$scratch/report" '^offer 1 wait 142$' 1
lines 'both frames reach the two other nodes once' "$scratch/report" ' arrive [0-2] good ' 4
exit $status
