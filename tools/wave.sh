# shellcheck shell=sh
# The command `wave`: the proved program t1s_draw writes the report of a script's run as a value change dump. Sourced by t1s.

# shellcheck source=tools/drawer.sh
. "$tools/drawer.sh"

# Reads the words behind `wave`: [K] [FILE].
read_wave_words() {
    node=
    words=run
    reads=script
    [ $# -le 2 ] || refuse_words "\`wave\` takes the number of a node and a file, and \`$(shown "$3")\` is a word too many" wave
    if [ $# -eq 2 ] && ! is_number "$1" 0 31; then
        refuse_words "\`wave K\` takes the number of a node, 0 to 31, and \`$(shown "$1")\` is none" wave
    fi
    if [ $# -ge 1 ] && is_number "$1" 0 31; then
        node=$1
        shift
    fi
    file=${1-}
}

# Decodes the capture of the node, as lines of its items. Where the program writes none, that is told, and the line of its refusal
# written.
hear_node() {
    [ -n "$node" ] || return 0
    "$runner" capture "$node" <"$input" >"$scratch/capture"
    ended=$?
    [ "$ended" -ne 0 ] || "$runner" decode <"$scratch/capture" >"$scratch/items" || ended=$?
    [ "$ended" -ne 0 ] || return 0
    [ "$ended" -ne 1 ] || cat "$scratch/capture"
    words="capture $node"
    command=capture
    tell_end
    exit "$ended"
}

# Hands the report on standard input on as a dump, with what the node hears among its events.
dump_report() {
    if [ -z "$node" ]; then
        "$drawer" wave "${size% *}" "${size#* }"
    else
        awk -v node="$node" -v items="$scratch/items" -f "$tools/heard.awk" | "$drawer" wave "${size% *}" "${size#* }" "$node"
    fi
}

# The report on standard input as a dump. The line of a refusal is written as it is.
draw_report() {
    IFS= read -r first || first=
    case $first in
    '' | refused\ *)
        [ -z "$first" ] || printf '%s\n' "$first"
        return 0
        ;;
    esac
    { printf '%s\n' "$first"; cat; } | dump_report
}

# Runs the script and dumps its run.
draw_wave() {
    read_wave_words "$@"
    draw_run
}
