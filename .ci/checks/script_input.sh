#!/bin/sh
# The script t1s finds its checkout however it is called, opens the file that is named, writes the part of a report that is asked
# for, and says how the program ended.
set -u
# shellcheck source=.ci/checks/lib/stub.sh
. .ci/checks/lib/stub.sh
begin
script=examples/three_nodes/script.t1s
report='8256 beacon 0
8276 quiet 0
settled 8285
node 0 sent 0 full 0 jam 0 drop 0 good 0 bad 0 clash 0
'
answer "$report" 0

# Whether the last call ran well on the script, with the words $1.
ran() {
  all 'ended_with 0' 'wrote "$report"' "got_words '$1'" "got_input $room/clone/$script" 'said_nothing'
}

# Waits until the file $1 has the octets of $2, for at most 100 tries.
until_same() {
  for try in 0 1 2 3 4 5 6 7 8 9; do
    for _ in 0 1 2 3 4 5 6 7 8 9; do
      cmp -s "$1" "$2" && return
      sleep 0.1
    done
  done
  echo "not the same after $try tries"
  return 1
}

call run $script
so "the program is built once for all that follows" ended_with 0
call run $script
so "a file as the last word is opened" ran run
call capture 3 $script
so "so is one behind a number" ran 'capture 3'
call run -- $script
so "so is one behind --" ran run
call run - <$script
so "- is standard input" ran run
call run <$script
so "no file is standard input" ran run
# shellcheck disable=SC2002  # a pipe is meant
cat $script | ./t1s check >"$room/text" 2>"$room/said"
ended=$?
so "a script comes through a pipe" ran check
# shellcheck disable=SC2002
cat $script | ./t1s decode >"$room/text" 2>"$room/said"
ended=$?
so "so does a capture" ran decode
printf 'T1SC' >"$room/piece"
(cat "$room/piece"; until_there "$room/go") | (./t1s decode >"$room/text" 2>"$room/said"; echo $? >"$room/ended") &
so "the first octets of a capture are handed on before the last ones are there" until_same "$room/read" "$room/piece"
: >"$room/go"
wait
so "and the program then runs to its end" [ "$(cat "$room/ended")" -eq 0 ]
cp $script ./-odd
call run -- -odd
so "a name may begin with a dash behind --" ran run
call run ./-odd
so "or behind ./" ran run
so "the temporary folder is left as it was" [ -z "$(ls -A "$room/tmp")" ]

rm "$room/words"
call run nowhere.t1s
so "a file that is not there is 3, with its name" all 'ended_with 3' 'wrote ""' 'said "nowhere.t1s: there is no such file"'
call decode examples
so "so is a folder" all 'ended_with 3' 'said "examples is a folder"'
so "the program is not run then" [ ! -f "$room/words" ]

mkdir "$room/a b" "$room/other"
ln -s ../clone/t1s "$room/a b/link"
ln -s "$room/a b/link" "$room/other/t1s"
cd "$room/other" || exit 1
"$room/other/t1s" run "$room/clone/$script" >"$room/text" 2>"$room/said"
ended=$?
so "a link to a link to t1s works from another folder" ran run
CDPATH=$room:$room/clone:. ../other/t1s run "../clone/$script" >"$room/text" 2>"$room/said"
ended=$?
so "an exported CDPATH changes nothing" ran run
(export CDPATH="$room:$room/clone:." && cd "$room" >/dev/null && clone/t1s run "clone/$script" >"$room/text" 2>"$room/said")
ended=$?
so "nor does it where t1s is named by a path" ran run
PATH=$room/other:$PATH t1s run "../clone/$script" >"$room/text" 2>"$room/said"
ended=$?
so "t1s is found on the path" ran run
mv "$room/clone" "$room/a clone"
cd "$room/a clone" || exit 1
call run $script
so "a path with spaces works" all 'ended_with 0' 'wrote "$report"' 'said_nothing'
cp $script "a script.t1s"
call run "a script.t1s"
so "so does a file with a space in its name" all 'ended_with 0' 'wrote "$report"' 'said_nothing'
so "nothing was built anew" built 1

call run --summary $script
so "--summary writes the summary alone" all 'ended_with 0' 'wrote "settled 8285
node 0 sent 0 full 0 jam 0 drop 0 good 0 bad 0 clash 0
"' 'got_words run'
call run $script --events
so "--events writes the events alone" all 'ended_with 0' 'wrote "8256 beacon 0
8276 quiet 0
"' 'got_words run'
call run --events --summary $script
so "both write the report" all 'ended_with 0' 'wrote "$report"'
./t1s run --summary $script >/dev/full 2>"$room/said"
ended=$?
so "a summary that can't be written is 4" all 'ended_with 4' 'said "writing standard output failed"'
answer 'refused 1 FirstLine
' 1
for option in --summary --events; do
  call run $option $script
  so "$option leaves the line of a refusal" all 'ended_with 1' 'wrote "refused 1 FirstLine
"' 'said "the first line of a script"'
done

ends() {
  answer '' "$1"
  told=$2
  call run $script
  so "the status $1 is handed on and told" all "ended_with $1" 'wrote ""' 'said "$told"'
}
ends 2 "the program doesn't know these words: run"
ends 3 "reading $script failed"
ends 4 'writing standard output failed'
ends 5 'out of memory'
ends 77 'the program ended with status 77'

answer "$report" 0
yes "8256 beacon 0" | head -n 100000 >"$room/answer"
(./t1s run $script 2>"$room/said"; echo $? >"$room/ended") | head -n 1 >"$room/text"
so "a reader that goes away is no fault to speak of" all 'wrote "8256 beacon 0
"' 'said_nothing' '[ "$(cat "$room/ended")" -eq 4 ]'
(./t1s run --events $script 2>"$room/said"; echo $? >"$room/ended") | head -n 1 >"$room/text"
so "nor where a part is asked for" all 'wrote "8256 beacon 0
"' 'said_nothing' '[ "$(cat "$room/ended")" -ne 0 ]'

# What a call writes and says where standard output is a terminal.
on_terminal() {
  script -qec "./t1s $* 2>'$room/said'" /dev/null </dev/null >"$room/text" 2>/dev/null
  ended=$?
}
if command -v script >/dev/null; then
  answer 'T1SC' 0
  on_terminal capture 2 $script
  so "a capture is not written to a terminal" all 'ended_with 2' 'wrote ""' 'said "--force"' 'said "t1s capture 2 FILE >"'
  on_terminal capture 2 --force $script
  so "but for --force" all 'ended_with 0' 'wrote T1SC' 'said_nothing'
  printf '\004' | script -qec "./t1s check 2>'$room/said'" /dev/null >"$room/text" 2>/dev/null
  so "it says that it reads from the terminal" said 'reading a script from the terminal'
  on_terminal run $script
  so "a report is" all 'ended_with 0' 'wrote T1SC' 'said_nothing'
fi
so "the temporary folder is left as it was" [ -z "$(ls -A "$room/tmp")" ]
exit $status
