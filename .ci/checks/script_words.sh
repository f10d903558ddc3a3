#!/bin/sh
# Wrong words and calls for help are answered at once by the script t1s, also where nothing is built and there is no toolchain.
set -u
# shellcheck source=.ci/checks/lib/stub.sh
. .ci/checks/lib/stub.sh
begin

# The words behind $2 are refused: status 2, nothing written, the text $1 and the usage said.
refused() {
  what=$1
  shift
  call "$@"
  so "t1s $*: $what" all 'ended_with 2' 'wrote ""' 'said "$what"' 'said "usage: t1s"'
}

refused 'no command'
refused 'an empty word is no command' ''
refused '`rnu` is no command; the nearest is `run`' rnu
refused '`captur` is no command; the nearest is `capture`' captur 2
refused '`README.md` is no command; a file is named after a command, as in `t1s run FILE`' README.md
refused '`frobnicate` is no command' frobnicate
refused '`--versoin` is no command; the nearest is `--version`' --versoin
refused '`--version` takes no further word' --version run
refused '`capture` lacks K' capture
refused '`capture K` takes the number of a node, 0 to 31, and `32` is none' capture 32
refused '`capture K` takes the number of a node, 0 to 31, and `01` is none' capture 01
refused '`capture K` takes the number of a node, 0 to 31, and `node.t1s` is none' capture node.t1s
refused '`capture` takes one file, and `more` is a word too many' capture 2 script.t1s more
refused '`run` takes one file, and `b` is a word too many' run a b
refused '`wave K` takes the number of a node, 0 to 31, and `32` is none' wave 32 script.t1s
refused '`wave` takes the number of a node and a file, and `more` is a word too many' wave 2 script.t1s more
refused '`gen` lacks FRAMES, a number of frames, 0 to 400' gen 1 2
refused '`gen NODES` takes a number of nodes, 1 to 16, and `0` is none' gen 1 0 0
refused '`load SEED` takes the seed of a script, 0 to 4294967295, and `4294967296` is none' load 4294967296 1 0
refused '`script.t1s` is a word too many' load 1 1 0 script.t1s
refused '`run` takes no option `--sumary`; the nearest is `--summary`' run --sumary
refused '`decode` takes no option `--events`' decode --events
refused 'an empty word names no file' run ''
refused '`install` lacks PREFIX' install
refused '`?` is no command' "$(printf '\377')"
refused '`rnu` is no command' help rnu
so "wrong words build nothing" built 0

call help
so "help is written, and names each command" all 'ended_with 0' 'said_nothing'
cp "$room/text" "$room/help"
grep -v '^#' tools/commands.txt | cut -d ' ' -f 1 >"$room/commands"
while read -r word; do
  so "help names $word" grep -q "^  $word " "$room/help"
  call help "$word"
  so "help $word is written" all 'ended_with 0' 'said_nothing' 'grep -q "^usage: t1s $word" "$room/text"'
done <"$room/commands"
for word in --help -h; do
  call "$word"
  so "$word is help" all 'ended_with 0' 'said_nothing' 'cmp -s "$room/text" "$room/help"'
done
call capture 2 --help
so "--help behind a command is its help" all 'ended_with 0' 'grep -q "0 to 31" "$room/text"'
call --version
so "--version is written" all 'ended_with 0' 'said_nothing' 'grep -q "^t1s [0-9]" "$room/text"'
for word in help --version; do
  ./t1s $word >/dev/full 2>"$room/said"
  ended=$?
  so "a failed write of $word is 4" all 'ended_with 4' 'said "writing standard output failed"'
done
so "help builds nothing" built 0
exit $status
