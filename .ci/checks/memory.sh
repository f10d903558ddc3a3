#!/bin/sh
# Where any one request for memory is refused, the program ends with status 5 and has written nothing, which the script t1s says in one
# sentence. `decode` and `gen` make no request but those for the words of the command line.
#
#   sh .ci/checks/memory.sh      from the top of the repository
#
# A small library that stands before the C library counts the requests and refuses one of them. `rt try --fail-alloc N` refuses one
# too, but compiles all crates anew for each N, and doesn't tell how many there are.
set -u

scratch=$(mktemp -d) || exit 1
trap 'rm -rf "$scratch"' EXIT
trap 'exit 1' HUP INT TERM
program=$PWD/crates/t1s/out/t1s
status=0

wrong() {
  echo "NOT AS WANTED: $1"
  status=1
}

# The gate has built the program before; elsewhere this builds it.
./t1s check <examples/fit/script.t1s >/dev/null || { echo "NOT AS WANTED: the program was not built"; exit 1; }
command -v cc >/dev/null || { echo "cc is not installed: not tried"; exit 0; }
cc -shared -fPIC -O1 -o "$scratch/refuse.so" .ci/checks/lib/refuse_memory.c || { wrong "the library was not built"; exit 1; }

# The script t1s as it is installed, over a program whose request REFUSED_REQUEST is refused. It alone is refused one.
install_script() {
  mkdir "$scratch/bin" "$scratch/libexec" || exit 1
  cp t1s "$scratch/bin/t1s"
  cp -R tools "$scratch/libexec/t1s"
  cat >"$scratch/libexec/t1s/program" <<PROGRAM
#!/bin/sh
LD_PRELOAD=$scratch/refuse.so exec "$program" "\$@"
PROGRAM
  chmod +x "$scratch/libexec/t1s/program"
}

# Runs the words after $1 on the input, where the request $1 is refused; none is where it is 0.
run_refused() {
  request=$1
  shift
  LD_PRELOAD=$scratch/refuse.so REFUSED_REQUEST=$request REQUESTS_MADE=$scratch/made \
    "$program" "$@" <"$scratch/input" >"$scratch/text" 2>"$scratch/said"
  ended=$?
}

# Runs the words, which end with the status $1 where no request is refused. `made` is how many requests they make.
count_requests() {
  wanted=$1
  shift
  rm -f "$scratch/made"
  run_refused 0 "$@"
  made=$(cat "$scratch/made" 2>/dev/null)
  [ "$ended" -eq "$wanted" ] || wrong "$* (status $ended, wanted $wanted) where no request is refused"
  [ "${made:-0}" -gt 0 ] || { wrong "$* made no request for memory: the library is not in use"; exit 1; }
}

# Counts the requests of the words, and those for the words themselves: they are what an unknown command with the same words makes.
count_both() {
  command=$1
  shift
  count_requests 2 unknown "$@"
  for_words=$made
  count_requests 0 "$command" "$@"
  cp "$scratch/text" "$scratch/whole"
}

# Whether the last call ended as one whose request $1 is refused has to. Where a list of words could not be made in one piece, the
# program goes on and lets it grow: such a call ends as if none were refused.
ended_well() {
  if [ "$ended" -eq 0 ] && [ "$1" -le "$for_words" ]; then
    cmp -s "$scratch/text" "$scratch/whole"
  else
    [ "$ended" -eq 5 ] && [ ! -s "$scratch/text" ] && [ ! -s "$scratch/said" ]
  fi
}

# Refuses each request of the words in turn, and the last one by way of the script t1s.
refuse_each() {
  count_both "$@"
  [ "$made" -gt "$for_words" ] || wrong "$* made no request but the $made for its words"
  at=1
  wrongs=0
  while [ "$at" -le "$made" ]; do
    run_refused "$at" "$@"
    ended_well "$at" || {
      wrong "$* whose request $at is refused (status $ended, wanted 5; $(wc -c <"$scratch/text") octets written)"
      wrongs=$((wrongs + 1))
    }
    at=$((at + 1))
  done
  [ $wrongs -gt 0 ] || echo "ends with 5 and writes nothing at each of $((made - for_words)) requests: $*"
  REFUSED_REQUEST=$made "$scratch/bin/t1s" "$@" <"$scratch/input" >"$scratch/text" 2>"$scratch/said"
  ended=$?
  if [ $ended -ne 5 ] || [ -s "$scratch/text" ] || [ "$(cat "$scratch/said")" != 't1s: out of memory' ]; then
    wrong "the script t1s with $* (status $ended, wanted 5; said: $(cat "$scratch/said"))"
  fi
}

# Sees that the words make no request but those for the words themselves.
takes_none() {
  count_both "$@"
  if [ "$made" -eq "$for_words" ]; then
    echo "makes no request but the $made for its words: $*"
  else
    wrong "$* made $made requests, $for_words of them for its words"
  fi
}

install_script
cp examples/one_frame/script.t1s "$scratch/input" || exit 1
refuse_each run
refuse_each check
refuse_each json
refuse_each capture 1
refuse_each pcap 0
refuse_each load 7 2 3
takes_none gen 7 2 3
"$program" capture 0 <examples/one_frame/script.t1s >"$scratch/input"
takes_none decode
exit $status
