# shellcheck shell=sh
# The words of the command line, held against the tables of tools/. Sourced by t1s, which sets `tools`.

wrong_words=2

# The rows of the table $1 without comments, a '|' between the columns and no blanks round it.
rows() {
    sed -e '/^#/d' -e 's/ *| */|/g' "$tools/$1"
}

# The column $2 of the row of commands.txt whose word is $1; nothing where there is none.
command_column() {
    rows commands.txt | WORD=$1 awk -F '|' -v column="$2" '$1 == ENVIRON["WORD"] { print $column }'
}

# What is written for a command of the word $1, as 'capture K [FILE]'.
usage_of() {
    rows commands.txt | WORD=$1 awk -F '|' '
        $1 != ENVIRON["WORD"] { next }
        {
            gsub(/=[0-9-]*/, "", $2)
            count = split($4, options, " ")
            for (i = 1; i <= count; i++) shown = shown " [" options[i] "]"
            print $1 ($2 == "" ? "" : " " $2) shown ($3 == "script" || $3 == "capture" ? " [FILE]" : "")
        }'
}

# The usage of every command, one a line.
usage() {
    begin='usage: t1s'
    rows commands.txt | cut -d '|' -f 1 | while read -r word; do
        echo "$begin $(usage_of "$word")"
        begin='       t1s'
    done
}

# A word as it can be shown: its printable ASCII characters, and '?' for each other octet.
shown() {
    printf '%s' "$1" | LC_ALL=C tr -c ' -~' '?'
}

# Tells on standard error what is wrong with the words, and the usage of the command $2, or of all.
refuse_words() {
    {
        echo "t1s: $1"
        if [ $# -gt 1 ]; then echo "usage: t1s $(usage_of "$2")"; else usage; fi
        echo "t1s help says more."
    } >&2
    exit $wrong_words
}

# Refuses the word $1, which is no command.
refuse_command() {
    near=$({ rows commands.txt | cut -d '|' -f 1; printf '%s\n' --help --version; } |
        WORD=$1 awk -f "$tools/near.awk")
    hint=${near:+; the nearest is \`$near\`}
    [ ! -f "$1" ] || hint='; a file is named after a command, as in `t1s run FILE`'
    refuse_words "\`$(shown "$1")\` is no command$hint"
}

# Refuses the option $1, which the command $2 does not take.
refuse_option() {
    near=$(command_column "$2" 4 | tr ' ' '\n' | WORD=$1 awk -f "$tools/near.awk")
    refuse_words "\`$2\` takes no option \`$(shown "$1")\`${near:+; the nearest is \`$near\`}" "$2"
}

# Whether $1 is a number from $2 to $3: decimal digits without a sign or a leading zero.
is_number() {
    case $1 in
    '' | *[!0-9]* | 0?* | ???????????*) return 1 ;;
    esac
    [ "$1" -ge "$2" ] && [ "$1" -le "$3" ]
}

# What an argument such as 'K=0-31' is, with its range.
meaning_of() {
    rows arguments.txt | awk -F '|' -v argument="$1" '
        BEGIN { split(argument, part, "[=-]") }
        $1 == part[1] { print $2 ", " part[2] " to " part[3] }'
}

# Holds the word $2 of the command $1 against its argument $3, as 'K=0-31'.
check_argument() {
    name=${3%%=*}
    range=${3#*=}
    is_number "$2" "${range%-*}" "${range#*-}" && return
    refuse_words "\`$1 $name\` takes $(meaning_of "$3"), and \`$(shown "$2")\` is none" "$1"
}

# Takes the option $2 of the command $1: `options` has all that were given.
options=
take_option() {
    case " $(command_column "$1" 4) " in
    *" $2 "*) options="$options $2 " ;;
    *) refuse_option "$2" "$1" ;;
    esac
}

has_option() {
    case $options in
    *" $1 "*) return 0 ;;
    *) return 1 ;;
    esac
}

# Holds the words behind the command $1 against its arguments. Sets `words`, the words of the proved program (each is a name of the
# table or a number), and `file`, the word behind them or nothing.
check_words() {
    command=$1
    reads=$(command_column "$command" 3)
    words=$command
    file=
    shift
    for argument in $(command_column "$command" 2); do
        [ $# -gt 0 ] || refuse_words "\`$command\` lacks ${argument%%=*}, $(meaning_of "$argument")" "$command"
        check_argument "$command" "$1" "$argument"
        words="$words $1"
        shift
    done
    [ $# -gt 0 ] || return 0
    [ "$reads" != nothing ] || refuse_words "\`$(shown "$1")\` is a word too many" "$command"
    [ $# -eq 1 ] || refuse_words "\`$command\` takes one file, and \`$(shown "$2")\` is a word too many" "$command"
    [ -n "$1" ] || refuse_words "an empty word names no file" "$command"
    file=$1
}
