# shellcheck shell=sh
# The command `picture`: the proved program t1s_draw writes the picture of a script's run. Sourced by t1s.

# shellcheck source=tools/drawer.sh
. "$tools/drawer.sh"

# Whether $1 is a tick.
is_tick() {
    is_number "$1" 0 20000000
}

# Whether $1 is a tick and $2 a later one.
is_window() {
    is_tick "$1" && is_tick "$2" && [ "$1" -lt "$2" ]
}

# Reads the words behind `picture`: [FROM UNTIL] [FILE].
read_picture_words() {
    from=
    until=
    words=run
    reads=script
    [ $# -le 3 ] || refuse_words "\`picture\` takes two ticks and a file, and \`$(shown "$4")\` is a word too many" picture
    if [ $# -ge 2 ]; then
        is_window "$1" "$2" ||
            refuse_words "\`picture\` takes the first tick and a later one, and \`$(shown "$1") $(shown "$2")\` is none such" picture
        from=$1
        until=$2
        shift 2
    fi
    file=${1-}
}

# The report on standard input as a picture. Without FROM it begins at the hundred before the first event, and without UNTIL it ends
# with the run. The line of a refusal is written as it is.
draw_report() {
    IFS= read -r first || first=
    case $first in
    '' | refused\ *)
        [ -z "$first" ] || printf '%s\n' "$first"
        return 0
        ;;
    esac
    tick=${first%% *}
    is_tick "$tick" || tick=0
    { printf '%s\n' "$first"; cat; } | "$drawer" picture "${from:-$((tick / 100 * 100))}" "${until:-${size% *}}" "${size#* }"
}

# Runs the script and draws its run.
draw_picture() {
    read_picture_words "$@"
    draw_run
}
