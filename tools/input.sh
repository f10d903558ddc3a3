# shellcheck shell=sh
# The input of a command: a file that is opened and handed on as standard input, or standard input itself. Sourced by t1s.
#
# Where the input can be read again, `input` names it, so that a refusal can be explained; else it is empty.

read_fault=3
most_of_script=1048577
most_of_copy=1048576

input=
input_name=

# Opens the file $1 as standard input. Nothing, and -, stand for standard input as it is.
open_input() {
    case $1 in
    '' | -)
        input_name='standard input'
        [ -n "$1" ] || [ ! -t 0 ] || say "reading a $reads from the terminal, up to Ctrl-D; \`t1s $words FILE\` reads a file"
        [ ! -f /dev/stdin ] || ! is_at_start || input=/dev/stdin
        ;;
    *)
        input_name=$(shown "$1")
        [ -e "$1" ] || fail "$read_fault" "$input_name: there is no such file"
        [ ! -d "$1" ] || fail "$read_fault" "$input_name is a folder"
        [ -p "$1" ] || true <"$1" 2>/dev/null || fail "$read_fault" "$input_name can't be read"
        exec <"$1"
        [ ! -f "$1" ] || input=/dev/stdin
        ;;
    esac
}

# Whether standard input, a file, is at its start: then opening it anew gives the same octets.
is_at_start() {
    position=$(sed -n 's/^pos:[[:space:]]*//p' "/proc/$$/fdinfo/0" 2>/dev/null)
    [ "${position:-1}" = 0 ]
}

# Keeps a copy of a script that comes through a pipe or from a terminal, as far as a script may go, and hands that on.
keep_script() {
    [ -p /dev/stdin ] || [ -t 0 ] || return 0
    make_scratch
    head -c $most_of_script >"$scratch/input" || fail "$read_fault" "reading $input_name failed"
    exec <"$scratch/input"
    input=$scratch/input
}

# Keeps a copy of the beginning of a capture that comes through a pipe, and hands on each piece as it comes, once it is in the copy
# (tee writes its standard output first).
keep_capture() {
    [ -p /dev/stdin ] || return 0
    make_scratch
    mkfifo "$scratch/pipe" || return 0
    exec 5<&0
    {
        dd bs=4096 count=$((most_of_copy / 4096)) | tee /dev/fd/6 >"$scratch/input"
        cat >&6
    } <&5 5<&- 6>"$scratch/pipe" 2>/dev/null &
    copier=$!
    exec 5<&- <"$scratch/pipe"
    input=$scratch/input
}
