# Puts what a node hears among the events of a report, in the order of their ticks: a line `TICK hears K WHAT` where an item of the
# capture of node K begins, where the blur of a torn one does, and where the item ends. The report comes on standard input, and
# the lines of the decoded capture are in the file `items`.
#
#   awk -v node=K -v items=FILE -f tools/heard.awk

# What the next item tells, as the ticks at[1] .. and the words what[1] .. of `turns` turns.
function take_item(line, field, blur) {
    turns = 0
    turn = 1
    while (turns == 0 && (getline line < items) > 0) {
        split(line, field, " ")
        if (field[1] == "beacon") {
            tell(field[2], "beacon")
            tell(field[2] + 20, "silence")
        } else if (field[1] == "run" || field[1] == "bare") {
            tell(field[2], field[1])
            tell(field[3], "silence")
        } else if (field[1] == "torn") {
            blur = field[3] - field[5]
            if (field[2] < blur) tell(field[2], "torn")
            if (blur < field[3]) tell(blur, "blur")
            tell(field[3], "silence")
        }
    }
}

function tell(tick, word) {
    turns++
    at[turns] = tick
    what[turns] = word
}

# Writes what is heard up to the tick.
function write_heard(tick) {
    while (turn <= turns && at[turn] + 0 <= tick) {
        print at[turn], "hears", node, what[turn]
        turn++
        if (turn > turns) take_item()
    }
}

BEGIN { take_item() }
$1 == "settled" { write_heard(4294967295) }
$1 ~ /^[0-9]+$/ { write_heard($1) }
{ print }
