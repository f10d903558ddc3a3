#!/bin/sh
# The script t1s builds the program once, shows how far that is, runs no stale program, and leaves nothing behind.
set -u
# shellcheck source=.ci/checks/lib/stub.sh
. .ci/checks/lib/stub.sh
begin
script=examples/three_nodes/script.t1s
answer 'settled never
' 0

is_empty() {
  [ -z "$(ls -A "$1")" ]
}

# Comes to no build, and then changes a source by the command $2; the next call has to build.
stale_after() {
  count=$(wc -l <"$room/calls")
  call run $script
  so "nothing is built before: $1" built "$count"
  eval "$2"
  call run $script
  so "the program is built anew after: $1" all 'ended_with 0' "built $((count + 1))"
}

(PATH=/usr/bin:/bin; call run $script; exit "$ended")
ended=$?
so "no toolchain is 127" all 'ended_with 127' 'said "no toolchain (rt)"'
: >"$room/fails"
call run $script
so "a build that fails is 126, and says why" all 'ended_with 126' 'wrote ""' 'said "error: not proved"' 'said "was not built"'
rm "$room/fails"
so "a build that fails leaves no file in the temporary folder" is_empty "$room/tmp"

: >"$room/calls"
call run $script
so "the first call builds and runs" all 'ended_with 0' 'built 1' 'wrote "settled never
"' 'got_words run' "got_input $script"
so "it says how long that takes and what it needs" all 'said "on four processors"' 'said "of disk"'
so "each crate has a line" all 'said "t1s: t1s_base proved, 1 of "' 'said "t1s: t1s proved, "'
so "a build leaves no file in the temporary folder" is_empty "$room/tmp"
call run $script
so "the second call is silent and builds nothing" all 'ended_with 0' 'built 1' 'said_nothing'

source=crates/t1s/src/main.rt
stale_after "a source is changed" "echo >>$source"
stale_after "a source is added" ": >crates/t1s_base/specs/Added.antt"
stale_after "a source is removed" "rm crates/t1s_base/specs/Added.antt"
cp -p $source "$room/older"
touch -t 200001010000 "$room/older"
echo >>"$room/older"
stale_after "an older file takes a source's place" "touch -t 200001010000 '$room/older'; mv '$room/older' $source"
stale_after "a source is written over and has the old time" "cp -p $source '$room/kept'; echo >>$source; touch -r '$room/kept' $source"
stale_after "crates.txt is changed" "echo '# more' >>crates.txt"
stale_after "another program takes the program's place" "cp crates/t1s/out/t1s '$room/t1s'; echo '# more' >>'$room/t1s'; mv '$room/t1s' crates/t1s/out/t1s"

count=$(wc -l <"$room/calls")
touch $source
call run $script
so "a source with a new time and the same octets changes nothing" all 'ended_with 0' "built $count" 'said_nothing'
: >crates/t1s_base/must-fail/new.edit
call run $script
so "nor does a must-fail edit" all 'ended_with 0' "built $count" 'said_nothing'
# The same as call, by a user that can't write in the checkout: as root it is nobody who calls.
as_nobody() {
  chmod a+rwx "$room"
  chmod a+rw "$room/words" "$room/read"
  if [ "$(id -u)" -eq 0 ]; then set -- setpriv --reuid=65534 --regid=65534 --clear-groups ./t1s "$@"; else set -- ./t1s "$@"; fi
  "$@" >"$room/text" 2>"$room/said"
  ended=$?
}

chmod -R a-w crates/t1s
touch crates/t1s/src/main.rt
as_nobody run $script
so "a built checkout without write access runs" all 'ended_with 0' "built $count" 'said_nothing'
chmod -R u+w crates/t1s

if command -v flock >/dev/null; then
  echo >>$source
  echo 2 >"$room/build_seconds"
  ./t1s run $script >"$room/text_1" 2>"$room/said_1" &
  first=$!
  call run $script
  wait $first
  so "two first calls at once make one build" all 'ended_with 0' "built $((count + 1))" 'cmp -s "$room/text" "$room/text_1"'
  cat "$room/said_1" >>"$room/said"
  so "the other call says that it waits" said 'another call is building the program'
else
  echo "flock is not installed: two calls at once are not tried"
fi
count=$(wc -l <"$room/calls")

# Waits until the toolchain was called $1 times, for at most some 20 seconds.
until_built() {
  tries=0
  while ! built "$1" && [ $tries -lt 200 ]; do
    tries=$((tries + 1))
    sleep 0.1
  done
}

# A build that $1 ended, with the status $2.
has_ended() {
  so "a build that $1 ended leaves no file in the temporary folder" all "ended_with $2" 'is_empty "$room/tmp"' '! said Terminated'
  count=$(wc -l <"$room/calls")
}

echo >>$source
echo 30 >"$room/build_seconds"
./t1s run $script >"$room/text" 2>"$room/said" &
first=$!
until_built $((count + 1))
kill -TERM $first
wait $first
ended=$?
has_ended "a signal" 143
if command -v script >/dev/null; then
  { until_built $((count + 1)); printf '\003'; until_there "$room/is_over"; } |
    { script -qec "./t1s run $script" /dev/null; echo $? >"$room/ended"; : >"$room/is_over"; } >"$room/text" 2>"$room/said"
  ended=$(cat "$room/ended")
  has_ended "Ctrl-C" 130
  echo 1 >"$room/build_seconds"
  script -qec "./t1s run $script" /dev/null </dev/null >"$room/text" 2>"$room/said"
  ended=$?
  so "on a terminal what is proved is one line that is written over" all 'ended_with 0' "built $((count + 1))" \
    'grep -q "$(printf "\r\033")\[Kt1s: " "$room/text"' '! grep -q "proved, 1 of" "$room/text"'
  count=$((count + 1))
  echo >>$source
fi
echo 0 >"$room/build_seconds"
call run $script
so "the program is built by the next call" all 'ended_with 0' "built $((count + 1))" 'is_empty "$room/tmp"'
rm -rf crates/t1s/out
chmod a-w crates/t1s
as_nobody run $script
so "a checkout that is not built and can't be written is 126" all 'ended_with 126' 'said "can'"'"'t be written"'
exit $status
