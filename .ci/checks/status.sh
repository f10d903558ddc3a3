#!/bin/sh
# The proved program ends with the status of each answer, and writes what belongs to it. Here the program itself is run, and not
# the script t1s: no clause says with which status its `main` ends, nor what it does with a word that is not UTF-8.
#
#   sh .ci/checks/status.sh      from the top of the repository
#
# Want of memory (5) has a check of its own, memory.sh.
set -u

scratch=$(mktemp -d) || exit 1
trap 'rm -rf "$scratch"' EXIT
trap 'exit 1' HUP INT TERM
program=crates/t1s/out/t1s
status=0

# The gate has built the program before; elsewhere this builds it.
./t1s check <examples/fit/script.t1s >/dev/null || { echo "NOT AS WANTED: the program was not built"; exit 1; }

# Compares how a run ended with the status $2 that is wanted, and what it wrote with the text $3.
row() {
  printf '%s' "$3" >"$scratch/wanted"
  if [ "$ended" -eq "$2" ] && cmp "$scratch/text" "$scratch/wanted" >"$scratch/said" 2>&1; then
    echo "ends with $2: $1"
  else
    echo "NOT AS WANTED: $1 (status $ended, wanted $2)"
    cat "$scratch/said"
    status=1
  fi
}

# Runs the program on the words and keeps its text and status.
run() {
  "$program" "$@" >"$scratch/text" 2>"$scratch/said"
  ended=$?
}

# The same with a standard output that takes nothing.
run_full() {
  : >"$scratch/text"
  "$program" "$@" >/dev/full 2>"$scratch/said"
  ended=$?
}

script=examples/three_nodes/script.t1s
newline='
'
run run <examples/three_nodes/script.t1s
row "run" 0 "$(cat examples/three_nodes/run.txt)$newline"
run gen 1 1 0 <.
row "gen, which reads nothing" 0 "$(cat examples/generated/gen_1_1_0.txt)$newline"
run load 1 1 0 <.
row "load, which reads nothing" 0 "$(cat examples/generated/load_1_1_0.txt)$newline"
run run </dev/null
row "run on no input" 1 "refused 1 FirstLine$newline"
run check </dev/null
row "check on no input" 1 "refused 1 FirstLine$newline"
run json <examples/one_frame/script.t1s
row "json" 0 "$(cat examples/one_frame/json.txt)$newline"
run json </dev/null
row "json on no input" 1 "refused 1 FirstLine$newline"
run capture 7 <$script
row "capture of a node that is not there" 1 "refused 0 UnknownNode$newline"
run pcap 31 <$script
row "pcap of a node that is not there" 1 "refused 0 UnknownNode$newline"
run decode </dev/null
row "decode on no input" 1 "refused 0 Truncated$newline"

run <$script
row "no words" 2 ""
run nod <$script
row "an unknown word" 2 ""
run run run <$script
row "a word too many" 2 ""
run capture 32 <$script
row "a number out of range" 2 ""
run pcap 32 <$script
row "another one" 2 ""
run gen 1 0 0 <$script
row "a number below its range" 2 ""
run load 1 1 401 <$script
row "one above it" 2 ""
run "$(printf '\377')" <$script
row "a word that is not UTF-8" 2 ""
run run "$(printf '\303')" <$script
row "a second word that is not UTF-8" 2 ""

for words in run check json "capture 2" "pcap 2" decode; do
  # shellcheck disable=SC2086  # the words are split on purpose
  run $words <.
  row "$words where standard input is a folder" 3 ""
  # shellcheck disable=SC2086
  run_full $words </dev/null
  row "$words where standard output is full" 4 ""
done
run_full run <$script
row "run of a script where standard output is full" 4 ""
for words in "gen 1 1 0" "load 1 1 0"; do
  # shellcheck disable=SC2086
  run_full $words
  row "$words where standard output is full" 4 ""
done
exit $status
