# shellcheck shell=sh
# Runs the proved program, and says on standard error in plain words how it ended. Sourced by t1s.

# Runs the command whose words, file and options have been read.
run_command() {
    refuse_terminal
    [ "$reads" = nothing ] || open_input "$file"
    is_current || build
    case $reads in
    script) keep_script ;;
    capture) keep_capture ;;
    nothing) exec </dev/null ;;
    esac
    run_program
    ended=$?
    tell_end
    exit $ended
}

# Octets are not for a terminal.
refuse_terminal() {
    case " $(command_column "$command" 4) " in
    *' --force '*) ;;
    *) return ;;
    esac
    case $command in
    pcap) file_name=node.pcap ;;
    *) file_name=node.t1sc ;;
    esac
    has_option --force || [ ! -t 1 ] || refuse_words \
        "\`$command\` writes octets, which a terminal doesn't show: write them to a file, as \`t1s $words FILE > $file_name\`, or give --force" "$command"
}

# Ends with the program's status. Its standard output is the script's own, but for a part of the report.
run_program() {
    # shellcheck disable=SC2086  # the words are split on purpose: each is a name of the table or a number
    if has_option --summary && ! has_option --events; then
        run_filtered '/^settled /,$p;/^refused /p'
    elif has_option --events && ! has_option --summary; then
        run_filtered '/^settled /,$d;p'
    else
        "$program" $words
    fi
}

# Writes those lines of the program's text that `sed -n` with the text $1 writes. Where these can't be written, that is a write fault.
run_filtered() {
    exec 4>&1
    # shellcheck disable=SC2086
    statuses=$(
        exec 3>&1
        { "$program" $words 3>&- 4>&-; echo "program $?" >&3; } |
            { sed -n "$1" 3>&- >&4 4>&- 2>/dev/null || echo "filter failed" >&3; }
    )
    exec 4>&-
    ended=${statuses#*program }
    ended=${ended%%[!0-9]*}
    case $ended$statuses in
    0*filter*) return "$write_fault" ;;
    *) return "$ended" ;;
    esac
}

# Says how the program ended. Nothing is said where all is well, nor where the reader of the output has gone away.
tell_end() {
    case $ended in
    0) ;;
    1) explain_refusal ;;
    2) say "the program doesn't know these words: $words" ;;
    3) say "reading $input_name failed" ;;
    4) [ -p /dev/stdout ] || say "writing standard output failed" ;;
    5) say "out of memory" ;;
    141) [ -p /dev/stdout ] || say "the program ended with status $ended" ;;
    *) say "the program ended with status $ended" ;;
    esac
}
