# shellcheck shell=sh
# The help, made from the tables. Sourced by t1s and by tools/pages.sh.

write_fault=4

# Writes what standard input has, so that a write that fails ends with the status of one.
write_text() {
    cat 2>/dev/null || fail "$write_fault" "writing standard output failed"
}

# The rows of two columns in lines, the second column from the 13th character on.
listed() {
    awk -F '|' '{ printf "  %-11s %s\n", $1, $2 }'
}

help_text() {
    echo "t1s: a workbench for 10BASE-T1S segments with PLCA"
    echo
    usage
    echo "       t1s --version"
    echo
    echo "FILE is the input; without it, or with -, that is standard input."
    echo
    rows commands.txt | cut -d '|' -f 1,5 | listed
    echo
    rows options.txt | cut -d '|' -f 1,3 | listed
    echo
    echo "Exit status:"
    rows statuses.txt | listed
    echo
    echo "docs/formats.md describes scripts, reports, captures and refusals."
}

# The help of the command $1 alone.
help_of() {
    echo "usage: t1s $(usage_of "$1")"
    echo
    echo "  $(command_column "$1" 5)"
    for argument in $(command_column "$1" 2); do
        meaning=$(meaning_of "$argument")
        [ -z "$meaning" ] || echo "${argument%%=*}|$meaning" | listed
    done
    for option in $(command_column "$1" 4); do
        rows options.txt | awk -F '|' -v option="$option" '$1 == option { print $1 "|" $3 }' | listed
    done
}

# Answers `help`, with the name of a command or without.
write_help() {
    [ $# -gt 0 ] || { help_text | write_text; return; }
    [ -n "$(command_column "$1" 1)" ] || refuse_command "$1"
    [ $# -eq 1 ] || refuse_words "\`$(shown "$2")\` is a word too many" help
    help_of "$1" | write_text
}

write_version() {
    echo "t1s $version" | write_text
}
