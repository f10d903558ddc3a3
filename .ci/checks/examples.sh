#!/bin/sh
# Each folder of examples/ is a story: its input, and beside it what commands write for it.
#
#   sh .ci/checks/examples.sh      from the top of the repository
#
# An input is named script.t1s or capture.t1sc. Each other file is named by its command, the words joined by '_': run.txt is
# what `run` writes, capture_2.t1sc what `capture 2` writes. A command that reads a capture is given capture.t1sc, or else the
# one capture_K.t1sc that stands there. NAME.status holds the exit status of the command of NAME, where it isn't 0.
# So a new example, or one more text of an old one, is a file and no row here.
#
# The gate has built the program before. Elsewhere the script t1s proves and builds it first, where it is not up to date.
set -u

scratch=$(mktemp -d) || exit 1
trap 'rm -rf "$scratch"' EXIT
trap 'exit 1' HUP INT TERM
status=0

wrong() {
  echo "NOT AS WANTED: $1"
  status=1
}

# What the command of the word $1 reads, by the table of commands.
reads() {
  awk -F '[ ]*[|][ ]*' -v word="$1" '!/^#/ && $1 == word { print $3 }' tools/commands.txt
}

# The file of the story $1 that a command of the word $2 is given.
input() {
  case $(reads "$2") in
  script) echo "$1/script.t1s" ;;
  capture)
    [ -f "$1/capture.t1sc" ] && { echo "$1/capture.t1sc"; return; }
    set -- "$1"/capture_*.t1sc
    [ $# -eq 1 ] && echo "$1"
    ;;
  nothing) echo /dev/null ;;
  esac
}

# Whether there is a text named $1, whatever its name ends in.
has_text() {
  for text in "$1".*; do
    case $text in *.status) ;; *) [ -f "$text" ] && return ;; esac
  done
  return 1
}

# Runs the command by which the file $2 of the story $1 is named.
compare() {
  name=${2%.*}
  words=$(echo "$name" | tr _ ' ')
  from=$(input "$1" "${words%% *}")
  [ -r "$from" ] || { wrong "$1/$2 is the text of no command, or has no input"; return; }
  wanted=0
  [ ! -f "$1/$name.status" ] || wanted=$(cat "$1/$name.status")
  # shellcheck disable=SC2086  # the words are split on purpose
  ./t1s $words <"$from" >"$scratch/text" 2>"$scratch/said"
  ended=$?
  echo "$from" >>"$scratch/used"
  if [ "$ended" -eq "$wanted" ] && cmp "$scratch/text" "$1/$2" >>"$scratch/said" 2>&1; then
    echo "as $1/$2: t1s $words < $from"
  else
    wrong "t1s $words < $from (status $ended, wanted $wanted; its text, wanted $1/$2)"
    tail -n 20 "$scratch/said"
  fi
}

: >"$scratch/used"
for file in examples/*/*; do
  story=${file%/*}
  name=${file##*/}
  case $name in
  script.t1s | capture.t1sc) ;;
  *.status)
    has_text "${file%.status}" || wrong "$file has no text beside it"
    ;;
  *) compare "$story" "$name" ;;
  esac
done
for file in examples/*; do
  [ -d "$file" ] || wrong "$file is not the folder of a story"
done
for file in examples/*/script.t1s examples/*/capture.t1sc; do
  [ ! -f "$file" ] || grep -Fxq "$file" "$scratch/used" || wrong "$file has no text beside it"
done
exit $status
