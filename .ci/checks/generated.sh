#!/bin/sh
# Scripts that are made from a seed, on runs of the program itself: they are fit, no node transmits into another's frame, and `load`
# writes the summary that `run` writes for the script of `gen`, each time the same.
#
#   sh .ci/checks/generated.sh      from the top of the repository
set -u

scratch=$(mktemp -d) || exit 1
trap 'rm -rf "$scratch"' EXIT
trap 'exit 1' HUP INT TERM
program=crates/t1s/out/t1s
status=0

# The gate has built the program before; elsewhere this builds it.
./t1s check <examples/fit/script.t1s >/dev/null || { echo "NOT AS WANTED: the program was not built"; exit 1; }

# Says whether the command behind the words $1 went well.
so() {
  what=$1
  shift
  if "$@"; then
    echo "as wanted: $what"
  else
    echo "NOT AS WANTED: $what"
    status=1
  fi
}

# Whether the file $1 has $2 lines of the form $3.
has_lines() {
  [ "$(grep -c "$3" "$1")" -eq "$2" ]
}

"$program" load 7 8 400 >"$scratch/load"
so 'load 7 8 400 is done' [ $? -eq 0 ]
so 'no node of eight has a clash' has_lines "$scratch/load" 8 '^node [0-7] sent [0-9]* full [0-9]* jam [0-9]* drop [0-9]* good [0-9]* bad 0 clash 0$'
so 'each of the 400 offers has a line' has_lines "$scratch/load" 400 '^offer [0-9]* '
"$program" load 7 8 400 >"$scratch/again"
so 'the second run writes the same' cmp -s "$scratch/load" "$scratch/again"
"$program" gen 7 8 400 >"$scratch/script"
"$program" run <"$scratch/script" | sed -n '/^settled /,$p' >"$scratch/summary"
so 'run writes the same summary for the script of gen 7 8 400' cmp -s "$scratch/load" "$scratch/summary"

"$program" gen 7 16 400 >"$scratch/script"
so 'gen 7 16 400 is done' [ $? -eq 0 ]
so 'its script has 400 frames' has_lines "$scratch/script" 400 '^fill '
"$program" check <"$scratch/script" >"$scratch/fit"
so 'its script is fit' has_lines "$scratch/fit" 1 '^fit [0-9]* [0-9]*$'
exit $status
