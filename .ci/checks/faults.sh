#!/bin/sh
# What a user meets where a stream fails or an input is cut or too long: the program and the script t1s end with the status that is
# named, by themselves and not by a signal, with one sentence on standard error, and no line begins after the fault.
#
#   sh .ci/checks/faults.sh      from the top of the repository
set -u

scratch=$(mktemp -d) || exit 1
trap 'rm -rf "$scratch"' EXIT
trap 'exit 1' HUP INT TERM
program=crates/t1s/out/t1s
script=examples/one_frame/script.t1s
status=0

# The gate has built the program before; elsewhere this builds it.
./t1s check <examples/fit/script.t1s >/dev/null || { echo "NOT AS WANTED: the program was not built"; exit 1; }

wrong() {
  echo "NOT AS WANTED: $1"
  status=1
}

# Whether the last call ended with the status $2, and said so many lines on standard error as $3 has.
row() {
  said=$(wc -l <"$scratch/said")
  if [ "$ended" -eq "$2" ] && [ "$said" -eq "$3" ]; then
    echo "ends with $2: $1"
  else
    wrong "$1 (status $ended, wanted $2; $said lines on standard error, wanted $3)"
    cat "$scratch/said"
  fi
}

# The octets in a file are the first ones of another.
prefix() {
  if [ -s "$2" ] && [ "$(wc -c <"$2")" -le "$(wc -c <"$3")" ] && cmp -s "$2" "$3" -n "$(wc -c <"$2")"; then
    echo "is a prefix of the text: $1"
  else
    wrong "$1 is empty or no prefix of the text"
  fi
}

# The words $1 with a standard output that takes nothing; they read the file $2.
takes_nothing() {
  # shellcheck disable=SC2086  # the words are split on purpose
  ./t1s $1 <"$2" >&- 2>"$scratch/said"
  ended=$?
  row "$1 where standard output is closed" 4 1
  # shellcheck disable=SC2086
  ./t1s $1 <"$2" >/dev/full 2>"$scratch/said"
  ended=$?
  row "$1 where the device is full" 4 1
}

# The words $1, which read the file $2, with a standard output whose reader goes away: nothing is said then.
reader_goes_away() {
  # shellcheck disable=SC2086
  { sleep 0.2; ./t1s $1 <"$2" 2>"$scratch/said"; echo $? >"$scratch/ended"; } | true
  ended=$(cat "$scratch/ended")
  row "$1 where the reader goes away" 4 0
}

# Whether the last call wrote nothing.
wrote_nothing() {
  [ ! -s "$scratch/text" ] || wrong "$1 wrote something"
}

# The words $1 with a standard input that is closed, or is a folder, and with a folder as the file that they name.
can_not_read() {
  # shellcheck disable=SC2086
  ./t1s $1 <&- >"$scratch/text" 2>"$scratch/said"
  ended=$?
  row "$1 where standard input is closed" 3 1
  wrote_nothing "$1 where standard input is closed"
  # shellcheck disable=SC2086
  ./t1s $1 <. >"$scratch/text" 2>"$scratch/said"
  ended=$?
  row "$1 where standard input is a folder" 3 1
  wrote_nothing "$1 where standard input is a folder"
  # shellcheck disable=SC2086
  ./t1s $1 . >"$scratch/text" 2>"$scratch/said"
  ended=$?
  row "$1 where the file is a folder" 3 1
  wrote_nothing "$1 where the file is a folder"
}

"$program" capture 0 <$script >"$scratch/capture"
for words in run check json 'capture 1' 'pcap 0'; do
  can_not_read "$words"
  takes_nothing "$words" "$script"
  reader_goes_away "$words" "$script"
done
can_not_read decode
takes_nothing decode "$scratch/capture"
reader_goes_away decode "$scratch/capture"

# Those that read nothing go well where standard input is closed.
for words in 'gen 1 1 0' 'load 1 1 0'; do
  # shellcheck disable=SC2086
  ./t1s $words <&- >"$scratch/text" 2>"$scratch/said"
  ended=$?
  row "$words where standard input is closed" 0 0
  takes_nothing "$words" /dev/null
  reader_goes_away "$words" /dev/null
done

# A device that is full after some blocks: what stands there is the beginning of the report.
sh tools/ordinary_use.sh >"$scratch/long"
"$program" run <"$scratch/long" >"$scratch/report"
(ulimit -f 100; trap '' XFSZ; exec "$program" run <"$scratch/long" >"$scratch/part" 2>"$scratch/said")
ended=$?
row 'run where the file may not grow on' 4 0
prefix 'what was written to it' "$scratch/part" "$scratch/report"

# The reader goes away from a text that is longer than what the program holds back.
reader_goes_away run "$scratch/long"
reader_goes_away 'capture 1' "$scratch/long"

# Inputs that are too long or of the wrong kind: the words $1 on a hundred million zeros write the line $2. The script t1s says what it
# means, in so many lines as $3 has.
refuses_zeros() {
  # shellcheck disable=SC2086
  head -c 100000000 /dev/zero | "$program" $1 >"$scratch/text" 2>"$scratch/said"
  ended=$?
  row "the program with $1 on a hundred million zeros" 1 0
  [ "$(cat "$scratch/text")" = "$2" ] || wrong "$1 on zeros wrote $(head -c 80 "$scratch/text")"
  # shellcheck disable=SC2086
  head -c 100000000 /dev/zero | ./t1s $1 >"$scratch/text" 2>"$scratch/said"
  ended=$?
  row "$1 on a hundred million zeros" 1 "$3"
  [ "$(cat "$scratch/text")" = "$2" ] || wrong "t1s $1 on zeros wrote $(head -c 80 "$scratch/text")"
}

for words in run check json 'capture 1' 'pcap 0'; do
  refuses_zeros "$words" 'refused 0 TooLong' 2
done
refuses_zeros decode 'refused 0 Magic' 3

# A capture that is cut at any octet is refused there, after the lines of the items before it.
octets=$(wc -c <"$scratch/capture")
cut=0
while [ "$cut" -lt "$octets" ]; do
  head -c "$cut" "$scratch/capture" | "$program" decode >"$scratch/text"
  ended=$?
  if [ $ended -ne 1 ] || [ "$(tail -n 1 "$scratch/text")" != "refused $cut Truncated" ]; then
    wrong "the capture cut at octet $cut"
  fi
  cut=$((cut + 1))
done
echo "so: a capture that is cut at each of its $octets octets is refused there"
exit $status
