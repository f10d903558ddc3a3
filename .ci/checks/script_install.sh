#!/bin/sh
# `t1s install PREFIX` copies all that a user calls, and the copy needs no checkout.
set -u
# shellcheck source=.ci/checks/lib/stub.sh
. .ci/checks/lib/stub.sh
begin
answer 'refused 2 Form
' 1
printf 't1s 1\nend\n' >"$room/script.t1s"
prefix="$room/a prefix"

call install "$prefix"
so "install builds the program and copies it" all 'ended_with 0' 'wrote ""' 'built 1'
cp docs/t1s.1 "$room/t1s.1"
rm -rf "${room:?}/clone" "${room:?}/bin"
mkdir "$room/elsewhere"
cd "$room/elsewhere" || exit 1
ln -s "$prefix/bin/t1s" t1s
call check ../script.t1s
so "a link to the copy runs it, and explains a refusal" all 'ended_with 1' 'wrote "refused 2 Form
"' 'got_words check' 'said "the line is \`end T\`"'
call help
so "the copy has its help" all 'ended_with 0' 'grep -q "usage: t1s run" "$room/text"'
for file in bin/t1s share/man/man1/t1s.1 share/doc/t1s/formats.md share/bash-completion/completions/t1s share/zsh/site-functions/_t1s; do
  so "$file is there and can be read by all" [ -n "$(find "$prefix/$file" -perm -444)" ]
done
so "the manual page is that of the checkout" cmp "$prefix/share/man/man1/t1s.1" "$room/t1s.1"
call install "$room/more"
so "the copy installs nothing" all 'ended_with 126' 'said "copies from the checkout"'
exit $status
