# shellcheck shell=sh
# Hands the report of a script's run on to the proved program t1s_draw. Sourced by tools/picture.sh and tools/wave.sh, whose
# function draw_report calls it.

# This program is built like the first one: its crate, its record, and a small report on which it is run once.
build_drawer() {
    [ -n "$record" ] || return 0
    crate=$here/crates/t1s_draw
    program=$crate/out/t1s_draw
    record=$crate/out/t1s_draw.record
    start_toolchain() {
        echo 'settled never' >"$scratch/report"
        (CDPATH='' cd -- "$crate" && TMPDIR=$scratch exec rt run -- picture 0 1 1) <"$scratch/report" >"$scratch/log" 2>&1 &
        builder=$!
    }
    is_current || build
}

# The end of the script and how many lanes its nodes have, as `END LANES`; the run has refused a script that has none.
size_of_script() {
    awk '$1 == "node" && $2 + 1 > lanes { lanes = $2 + 1 } $1 == "end" { end = $2 } END { print end + 0, lanes + 0 }' <"$input"
}

# Runs the script, and draws its run: `words`, `file` and `drawn_as`, the command, have been read, and `node`, where a dump shows what
# that node hears.
draw_run() {
    open_input "$file"
    is_current || build
    runner=$program
    drawer=$tools/drawer
    [ -z "$record" ] || drawer=$here/crates/t1s_draw/out/t1s_draw
    make_scratch
    (build_drawer) || exit $?
    [ -x "$drawer" ] || fail "$not_built" "the program that draws was not installed: call \`./t1s $drawn_as\` in the checkout once, and install again"
    keep_script
    [ -n "$input" ] || {
        cat >"$scratch/input" || fail "$read_fault" "reading $input_name failed"
        exec <"$scratch/input"
        input=$scratch/input
    }
    size=$(size_of_script)
    [ -z "${node-}" ] || hear_node
    { "$runner" run; echo $? >"$scratch/run"; } | draw_report
    drawn=$?
    ended=$(cat "$scratch/run")
    command=run
    [ "$drawn" -eq 0 ] || ended=$drawn
    tell_end
    exit "$ended"
}
