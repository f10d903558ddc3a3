# shellcheck shell=sh
# Explains on standard error what a refusal means. Sourced by t1s.

# Explains the refusal of the input. The command is run again on the input, where that can be read
# again, since its standard output is not the script's to read.
explain_refusal() {
    make_scratch
    refusal=
    # shellcheck disable=SC2086  # the words are split on purpose
    [ -z "$input" ] || refusal=$("$program" $words <"$input" 2>/dev/null | tail -n 1 | grep '^refused [0-9]* [A-Za-z]*$')
    if [ -z "$refusal" ]; then
        say "$input_name was refused: the last line of the output has the place and the reason (docs/formats.md)"
        return
    fi
    place=${refusal#refused }
    reason=${place#* }
    place=${place% *}
    case $reads in
    script) explain_script ;;
    capture) explain_capture ;;
    esac >&2
}

# Shows the line $place of the script and says which rule it breaks.
explain_script() {
    if [ "$place" -eq 0 ]; then
        echo "t1s: $input_name: refused as $reason"
    else
        echo "t1s: $input_name, line $place: refused as $reason"
    fi
    rows script_words.txt >"$scratch/words"
    near=$(first_field | { read -r WORD; export WORD; cut -d '|' -f 1 "$scratch/words" | awk -f "$tools/near.awk"; })
    head -c "$most_of_script" <"$input" | LC_ALL=C awk -v place="$place" -v reason="$reason" -v near="$near" \
        -v command="$command" -f "$tools/explain_script.awk" "$scratch/words" -
}

# The first field of the refused line.
first_field() {
    sed -n "${place}{s/ .*//;p;q;}" <"$input" 2>/dev/null
}

# Shows the octets round the offset $place of the capture and says what may stand there.
explain_capture() {
    echo "t1s: $input_name, offset $place: refused as $reason"
    [ "$place" -le "$most_of_copy" ] || return 0
    od -An -v -tx1 -N $((place + 9)) <"$input" |
        awk -v place="$place" -v reason="$reason" -f "$tools/explain_capture.awk"
}
