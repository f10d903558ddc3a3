#!/bin/sh
# Tells the script t1s that the gate has just built the program: what it was built of is then recorded, as after a build of its own.
#
#   sources=$(sh tools/built.sh sources)      before the gate
#   sh tools/built.sh record "$sources"       after it has passed; nothing is recorded where a source was changed meanwhile
set -u

here=$(CDPATH='' cd -P -- "$(dirname -- "$0")/.." && pwd -P) || exit 1
# shellcheck source=tools/program.sh
. "$here/tools/program.sh"

# Records that the program $1 is built of the sources whose sum is $2, if it is.
record_program() {
    crate=$here/crates/$1
    program=$crate/out/$1
    record=$program.record
    begin_record
    [ -x "$program" ] && [ "$(sum_of_sources)" = "$2" ] && write_record "$2"
    ended=$?
    [ -z "$begun" ] || rm -f "$begun"
    return $ended
}

case ${1-} in
sources) sum_of_sources ;;
record)
    record_program t1s_draw "${2-}"
    record_program t1s "${2-}"
    ;;
*) exit 2 ;;
esac
