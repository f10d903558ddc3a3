#!/bin/sh
# The value change dump of each report in examples/ is read by a short text in Python, which looks whether it is valid and tells the
# drives and events of the report and what a node hears by its decoded capture, and by the readers of GTKWave and sigrok. What is not
# there is skipped.
#
#   sh .ci/checks/wave.sh      from the top of the repository, once t1s_draw is built
set -u

command -v python3 >/dev/null || { echo "skipped: no python3 to read dumps with"; exit 0; }
drawer=crates/t1s_draw/out/t1s_draw
[ -x "$drawer" ] || { echo "skipped: $drawer is not built"; exit 0; }
scratch=$(mktemp -d) || exit 1
trap 'rm -rf "$scratch"' EXIT
trap 'exit 1' HUP INT TERM
status=0

# Whether the tools that are there read the dump $1: GTKWave's reader, and sigrok-cli, which finds the wire that tells whether the last
# of $2 nodes drives.
is_read() {
  ! command -v vcd2fst >/dev/null || vcd2fst "$1" "$scratch/run.fst" >/dev/null 2>&1 || return 1
  command -v sigrok-cli >/dev/null || return 0
  sigrok-cli -I vcd -i "$1" --show >"$scratch/shown" 2>"$scratch/faults" && [ ! -s "$scratch/faults" ] &&
    grep -q "^- drives_$(($2 - 1)): logic" "$scratch/shown"
}

# Holds the dump of the report of the story $1 that is written for these words against it, with what else there is to hear.
holds() {
  story=$1
  shift
  end=$(awk '$1 == "end" { print $2 }' "$story/script.t1s")
  nodes=$(awk '$1 == "node" && $2 + 1 > lanes { lanes = $2 + 1 } END { print lanes }' "$story/run.txt")
  # shellcheck disable=SC2086  # a number or nothing
  if "$drawer" wave "$end" "$nodes" ${1-} <"$scratch/report" >"$scratch/run.vcd" && is_read "$scratch/run.vcd" "$nodes" &&
    python3 .ci/checks/lib/dump_changes.py "$scratch/run.vcd" "$story/run.txt" "$end" "$@"; then
    echo "the dump tells the report: $story$([ $# -eq 0 ] || echo ", and what node $1 hears")"
  else
    echo "NOT AS WANTED: the dump of $story"
    status=1
  fi
}

for report in examples/*/run.txt; do
  story=${report%/*}
  ! grep -q '^refused' "$report" || continue
  cp "$report" "$scratch/report"
  holds "$story"
  for capture in "$story"/capture_*.t1sc; do
    [ -f "$capture" ] || continue
    [ -f "$story/decode.txt" ] || continue
    node=${capture##*_}
    node=${node%.t1sc}
    awk -v node="$node" -v items="$story/decode.txt" -f tools/heard.awk "$report" >"$scratch/report"
    holds "$story" "$node" "$story/decode.txt"
  done
done
exit $status
