#!/bin/sh
# The manual page and the completions are those that the tables of tools/ give, and name each command and option; documents name them
# too.
set -u

scratch=$(mktemp -d) || exit 1
trap 'rm -rf "$scratch"' EXIT
trap 'exit 1' HUP INT TERM
status=0

# Tells whether the command behind $1 holds.
so() {
  claim=$1
  shift
  if "$@" >"$scratch/said" 2>&1; then
    echo "so: $claim"
  else
    echo "NOT AS WANTED: $claim"
    head -n 20 "$scratch/said"
    status=1
  fi
}

# What bash offers behind the words.
offered() {
  bash -c '. tools/completion/t1s.bash
    COMP_WORDS=("$@"); COMP_CWORD=$(($# - 1)); _t1s 2>/dev/null; echo " ${COMPREPLY[*]} "' bash "$@"
}

offers() {
  wanted=$1
  shift
  case $(offered "$@") in *" $wanted "*) return 0 ;; esac
  return 1
}

sh tools/pages.sh "$scratch" || exit 1
for page in docs/t1s.1 tools/completion/t1s.bash tools/completion/_t1s; do
  so "$page is what sh tools/pages.sh writes" diff "$scratch/$page" $page
done
./t1s help >"$scratch/help"
grep -v '^#' tools/commands.txt >"$scratch/commands"
while IFS='|' read -r word _ _ options _; do
  word=$(echo "$word" | tr -d ' ')
  so "the manual page has the command $word" grep -q "^.B $word" docs/t1s.1
  so "help has the command $word" grep -q "t1s $word" "$scratch/help"
  so "zsh completes $word" grep -q "^ *'$word:" tools/completion/_t1s
  so "docs/formats.md or README.md names $word" grep -q "\`${word}[ \`]\|t1s ${word}" docs/formats.md README.md
  if command -v bash >/dev/null; then
    so "bash completes $word" offers "$word" t1s "$(printf %.2s "$word")"
    for option in $options; do
      so "bash completes $option of $word" offers "$option" t1s "$word" --
    done
  fi
done <"$scratch/commands"
if command -v groff >/dev/null; then
  so "the manual page is set without a warning" sh -c 'test -z "$(groff -man -Tascii -ww docs/t1s.1 2>&1 >/dev/null)"'
fi
if command -v zsh >/dev/null; then so "zsh reads its completion" zsh -n tools/completion/_t1s; fi
exit $status
