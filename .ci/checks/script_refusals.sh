#!/bin/sh
# A refusal is explained on standard error by the script t1s: the line or the octets, the rule and the range. Each row is an input, its
# refusal, and what has to be said; where the proved program is built, it has to refuse the input so.
set -u
# shellcheck source=.ci/checks/lib/stub.sh
. .ci/checks/lib/stub.sh
proved=$PWD/crates/t1s/out/t1s
begin
call run examples/three_nodes/script.t1s
so "the program is built once for all that follows" ended_with 0

# Compares what is said of the file $room/input, refused by the words $1 with the line $2, with the texts behind them.
row() {
  words=$1
  refusal=$2
  shift 2
  answer "$refusal
" 1
  # shellcheck disable=SC2086  # the words are split on purpose
  call $words "$room/input"
  so "$refusal is written and ends with 1" all 'ended_with 1' "wrote '$refusal
'" "got_words '$words'"
  for text in "$@"; do
    so "$refusal: $text" said "$text"
  done
  sed 1d "$room/said" >"$room/said_of_file"
  # shellcheck disable=SC2002,SC2086  # a pipe is meant
  cat "$room/input" | ./t1s $words >"$room/text" 2>"$room/said"
  ended=$?
  sed 1d "$room/said" >"$room/said_of_pipe"
  so "$refusal is explained through a pipe too" all 'ended_with 1' 'cmp -s "$room/said_of_file" "$room/said_of_pipe"'
  [ -x "$proved" ] || return 0
  # shellcheck disable=SC2086
  so "the proved program says $refusal" [ "$("$proved" $words <"$room/input" | tail -n 1)" = "$refusal" ]
}

# The same for the script $1, in which / stands for LF, and the command run.
script() {
  printf '%s\n' "$1" | tr / '\n' >"$room/input"
  shift
  row run "$@"
}

# The same for the octets $1, in hexadecimal behind a header of a capture, and the command decode.
capture() {
  {
    printf 'T1SC\001\002'
    for octet in $1; do
      # shellcheck disable=SC2059  # the format is the octet
      printf "\\$(printf %03o "0x$octet")"
    done
  } >"$room/input"
  shift
  row decode "$@"
}

script 't1s 1/node 0 0 0/nod 1 1 2/end 9' 'refused 3 UnknownWord' 'input, line 3' '    3 | nod 1 1 2' '| ^^^' \
  '`nod` is no word of a script; the nearest is `node NO ID PLACE`'
script 't1s 1//node 0 0 0/end 9' 'refused 2 UnknownWord' 'a blank line is refused'
script 't1s 1/ node 0 0 0/end 9' 'refused 2 UnknownWord' 'a blank stands before it'
script 't1s 1/to 15/node 0 0 0/end 9' 'refused 2 OutOfRange' '    2 | to 15' '|    ^^' 'N of `to` is 16 to 255, and `15` is outside'
script 't1s 1/node 16 0 0/end 9' 'refused 2 OutOfRange' 'NO of `node` is 0 to 15, and `16` is outside'
script 't1s 1/node 0 0 256/end 9' 'refused 2 OutOfRange' '|          ^^^' 'PLACE of `node` is 0 to 255'
script 't1s 1/to 032/node 0 0 0/end 9' 'refused 2 Number' 'without a leading zero, and `032` is none'
script 't1s 1/node 0 0 x/end 9' 'refused 2 Number' '|          ^' 'PLACE of `node` is a number'
script 't1s 1/node 0 0  0/end 9' 'refused 2 Form' '`node NO ID PLACE`' 'stand 4 fields and not 3, as an empty one counts'
script 't1s 1/node 0 0/end 9' 'refused 2 Form' 'stand 2 fields and not 3'
script 't1s 1/to 40/to 40/node 0 0 0/end 9' 'refused 3 Twice' '`to` may stand once, and stands in line 2 already'
script 't1s 1/node 3 0 0/node 3 1 0/end 9' 'refused 3 Twice' 'that of node 3 stands in line 2 already'
script 't1s 1/node 0 0 0/late 9 5/end 9' 'refused 3 UnknownNode' 'no `node` line of node 9 stands above; above stand the nodes 0'
script 't1s 1/node 0 0 0/fill 5 9 60 00/end 9' 'refused 3 UnknownNode' '|        ^' 'no `node` line of node 9 stands above'
script 't1s 1/node 0 0 0/draw 0 1024/end 9' 'refused 3 OutOfRange' 'R of `draw` is 0 to 1023, and `1024` is outside'
script 't1s 1/node 0 0 0/fill 2000001 0 9 00/end 9' 'refused 3 OutOfRange' '|      ^^^^^^^' 'T of `fill` is 0 to 2000000'
script 't1s 1/node 0 0 0/fill 5 0 x 00/end 9' 'refused 3 Number' 'LEN of `fill` is a number'
script 't1s 1/node 0 0 0/offer 5 0/end 9' 'refused 3 Form' '`offer T NO HEX`' 'stand 2 fields and not 3'
script 't1s 1/node 0 0 0/offer 5 0 0g/end 9' 'refused 3 Hex' '|           ^^' 'HEX of `offer` has hex digits alone, and `g` is none'
script 't1s 1/node 0 0 0/offer 5 0 012/end 9' 'refused 3 Hex' 'two hex digits for each octet, and 3 is an odd number'
script 't1s 1/node 0 0 0/fill 5 0 60 0/end 9' 'refused 3 Hex' '|             ^' 'OCTET of `fill` is two hex digits, and `0` is not'
script 't1s 1/node 0 0 0/fill 5 0 1519 00/end 9' 'refused 3 FrameSize' '|          ^^^^' 'a frame has 14 to 1518 octets' 'this one has 1519'
script 't1s 1/node 0 0 0/offer 5 0 00112233/end 9' 'refused 3 FrameSize' 'a frame has 14 to 1518 octets' 'this one has 4'
script 't1s 1/node 0 0 0/fill 5 0 60 00/fill 4 0 60 00/end 9' 'refused 4 Order' '|      ^' 'line 3 above has the tick 5'
script 't1s 1/node 0 0 0/fill 5 0 60 00/end 5' 'refused 4 Order' '`end` is above the tick of each timed line, and line 3 has the tick 5'
script 't1s 1/node 0 0 0/tonode 0 15/end 9' 'refused 3 OutOfRange' '|          ^^' 'N of `tonode` is 16 to 255, and `15` is outside'
script 't1s 1/node 0 0 0/tonode 0 40/tonode 0 40/end 9' 'refused 4 Twice' '`tonode` may stand once for a node, and that of node 0 stands in line 3 already'
script 't1s 1/node 0 0 0/tonode 9 40/end 9' 'refused 3 UnknownNode' '|        ^' 'no `node` line of node 9 stands above'
script 't1s 1/node 0 0 0/noise 9 9/end 20' 'refused 3 OutOfRange' '|         ^' 'U of `noise` is above T and at most 2000000, and `9` is outside'
script 't1s 1/node 0 0 0/noise 9 2000001/end 20' 'refused 3 OutOfRange' '|         ^^^^^^^' 'U of `noise` is above T and at most 2000000'
script 't1s 1/node 0 0 0/noise 2000001 9/end 20' 'refused 3 OutOfRange' '|       ^^^^^^^' 'T of `noise` is 0 to 2000000'
script 't1s 1/node 0 0 0/noise 5 9/fill 4 0 60 00/end 20' 'refused 4 Order' 'line 3 above has the tick 5'
script 't1s 1/node 0 0 0/noise 5 90/end 5' 'refused 4 Order' '`end` is above the tick of each timed line, and line 3 has the tick 5'
script 't1s 1/node 0 0 0/stub 0 5/end 9' 'refused 3 UnknownWord' '| ^^^^' '`stub` is a word since version 2, and line 1 says that the script is of version 1'
script 't1s 1/node 0 0 0/stab 0 5/end 9' 'refused 3 UnknownWord' '`stab` is no word of a script; the nearest is `stub NO U`, a word since version 2'
script 't1s 2/node 0 0 0/stab 0 5/end 9' 'refused 3 UnknownWord' '`stab` is no word of a script; the nearest is `stub NO U`'
script 't1s 2/node 0 0 0/stub 0 32/end 9' 'refused 3 OutOfRange' '|        ^^' 'U of `stub` is 0 to 31, and `32` is outside'
script 't1s 2/node 0 0 0/stub 0 5/stub 0 5/end 9' 'refused 4 Twice' '`stub` may stand once for a node, and that of node 0 stands in line 3 already'
script 't1s 2/node 0 0 0/stub 9 5/end 9' 'refused 3 UnknownNode' '|      ^' 'no `node` line of node 9 stands above'
script 't1s 3/node 0 0 0/also 0 2/also 0 2/end 9' 'refused 4 Twice' 'node 0 has the ID 2 already'
script 't1s 3/node 0 0 0/also 0 1/also 0 2/also 0 3/also 0 4/end 9' 'refused 6 TooMany' '|      ^' 'at most three `also` lines, and three of node 0 stand above'
script 't1s 2/node 0 0 0/also 0 2/end 9' 'refused 3 UnknownWord' '`also` is a word since version 3, and line 1 says that the script is of version 2'
script 't1s 3/node 32 0 0/end 9' 'refused 2 OutOfRange' 'NO of `node` is 0 to 31, and `32` is outside'
script 't1s 3/node 0 0 0/end 20000001' 'refused 3 OutOfRange' 'T of `end` is 1 to 20000000, and `20000001` is outside'
draws=$(printf '/draw 0 7%.0s' $(seq 65))
script "t1s 1/node 0 0 0$draws/end 9" 'refused 67 TooMany' '|      ^' 'at most 64 `draw` lines, and 64 of node 0 stand above'
fills=$(printf '/fill 5 0 60 00%.0s' $(seq 4097))
script "t1s 1/node 0 0 0$fills/end 9" 'refused 4099 TooMany' 'at most 4096 timed lines, and as many stand above'
script 't1s 1/end 10' 'refused 2 NoNode' 'at least one `node` line'
script 't1s 1/node 0 0 0' 'refused 3 NoEnd' 'a script ends with a line `end T`'
script 't1s 1/node 0 0 0/end 9/end 9' 'refused 4 AfterEnd' 'nothing but lines that begin with # may stand behind `end`, which is line 3'
script 't1s 4/node 0 0 0/end 9' 'refused 1 FirstLine' 'the first line of a script is `t1s 1`, `t1s 2` or `t1s 3`'
printf 't1s 1\r\nnode 0 0 0\r\nend 9\r\n' >"$room/input"
row run 'refused 1 FirstLine' 'carriage return'
printf 't1s 1\nnode 0 0 0\r\nend 9\r\n' >"$room/input"
row check 'refused 2 Number' 'carriage return'
: >"$room/input"
row run 'refused 1 FirstLine' 'the input is empty'
head -c 1048577 /dev/zero >"$room/input"
row run 'refused 0 TooLong' 'a script has at most 1048576 octets'
cp examples/three_nodes/script.t1s "$room/input"
row 'capture 7' 'refused 0 UnknownNode' 'no node of that number, which `capture` names; its nodes are 0, 1, 2'

capture '18 04' 'refused 7 Place' 'input, offset 7' '54 31 53 43 01 02 18 [04]' 'expected: 18 (J), 20 (a gap) or 21'
capture '18 18 04 04 0B' 'refused 11 Truncated' '[the input ends]' 'a piece has at least 9, and 1 stand here'
capture '20 00 00 00 01 20' 'refused 11 GapTwice' '00 00 00 01 [20]' 'a gap stands directly before'
capture '20 00 00 00 00' 'refused 10 CountZero' 'the ticks of a gap, which lasts at least 1 tick'
capture '21 00' 'refused 7 AfterEnd' '[00]' '21 has ended the capture'
capture '1F' 'refused 6 Group' 'no 5B group of a symbol'
capture '08 08 08 20' 'refused 9 Place' 'a beacon is five N, and 3 stand here'
capture '18 18 04 04 0B 0B 0B 09 16 16 16 1D 17 16 1C 1B 0D 1E' 'refused 23 Place' '07 (R), 11 (K) or 19 (S)'
{
  printf 'T1SC\001\002'
  head -c 4097 /dev/zero | tr '\000' '\030'
} >"$room/input"
row decode 'refused 4102 BurstLong' '18 18 [18]' 'at most 4096 J stand in a row'
printf 'T1SC\002' >"$room/input"
row decode 'refused 4 Version' 'expected: 01, the version'
printf 'T1SC\001\040' >"$room/input"
row decode 'refused 5 NodeByte' '00 to 1f'
cp examples/three_nodes/script.t1s "$room/input"
row decode 'refused 0 Magic' '54 31 53 43 (T1SC)' 'this looks like a script'
printf 'refused 3 Form\n' >"$room/input"
row decode 'refused 0 Magic' 'this looks like the text of a refusal'

# Each reason of docs/formats.md has its sentence.
grep -o '^| `[A-Z][A-Za-z]*` |' docs/formats.md | tr -d '| `' >"$room/reasons"
while read -r reason; do
  so "$reason has a row here" grep -q "refused [0-9]* $reason'" .ci/checks/script_refusals.sh
done <"$room/reasons"

# Each line of a script in docs/formats.md has its row in the table of words, with its ranges.
sed -n '/^| Line | Meaning/,/^$/s/^| `\([a-z]*\) [^|]*|[^|]*| *\([^|]*\) |.*/\1 \2/p' docs/formats.md >"$room/lines"
grep -v '^#' tools/script_words.txt | tr -d ' ' >"$room/table"
while read -r word ranges; do
  row=$(grep "^$word|" "$room/table")
  so "the table of words has $word" [ -n "$row" ]
  for range in $(echo "$ranges" | grep -o '[0-9]* to [0-9]*' | sed 's/ to /-/'); do
    so "the table of words has the range $range of $word" [ "${row#*="$range"}" != "$row" ]
  done
done <"$room/lines"
so "the table of words has no further line" [ "$(wc -l <"$room/lines")" -eq "$(wc -l <"$room/table")" ]
exit $status
