# shellcheck shell=sh
# The proved program: whether it is built of the sources as they are, and building it. Sourced by t1s, which sets `tools`, `here`
# (the top of the checkout), `crate` (the program's crate), `program` and `record` (what the program was built of).

not_built=126
no_toolchain=127
# What a first build takes on four processors, measured on an idle machine.
first_build='about a quarter of an hour on four processors, and 3 GB of disk'

builder=
begun=

say() {
    echo "t1s: $1" >&2
}

# Ends the script with the status $1 and says why.
fail() {
    say "$2"
    exit "$1"
}

# The sources, as names below the checkout's top: what the toolchain reads when it proves and builds the program.
sum_of_sources() {
    (cd -- "$here" && find crates.txt crates/*/src crates/*/specs crates/*/proofs -type f -exec cksum {} + 2>&1) |
        LC_ALL=C sort | cksum
}

sum_of_program() {
    cksum <"$program"
}

# Whether no file that counts was changed, put in place or removed after the record was written. It tells a change by the time that
# the system itself notes, so it sees an older file that was put in place too; where it can't tell it answers no.
is_untouched() {
    changed=$(cd -- "$here" && find crates.txt crates "$program" \( -name out -o -name must-fail \) -prune -o \
        -cnewer "$record" -print 2>&1 | head -n 1)
    [ -z "$changed" ]
}

# Whether the program is there and was built of the sources as they are now.
is_current() {
    [ -n "$record" ] || return 0
    [ -x "$program" ] && [ -f "$record" ] || return 1
    ! is_untouched || return 0
    begin_record
    [ "$(cat "$record")" = "$(sum_of_sources; sum_of_program)" ] || return 1
    [ ! -f "$begun" ] || touch -r "$begun" "$record"
}

# Notes the moment from which on a change counts as one after the record.
begin_record() {
    begun=$crate/out/begun.$$
    true 2>/dev/null >"$begun" || begun=
}

# Records that the program is built of the sources whose sum is $1.
write_record() {
    { echo "$1"; sum_of_program; } >"$record.new" && touch -r "$begun" "$record.new" && mv -f "$record.new" "$record"
}

# Waits for another call that is building. The lock goes with the process that holds it, however that ends.
take_lock() {
    command -v flock >/dev/null || return 0
    exec 9>"$crate/out/lock"
    flock -n 9 && return
    say "another call is building the program: waiting for it"
    flock 9
}

build() {
    command -v rt >/dev/null ||
        fail "$no_toolchain" "the program is not built, and there is no toolchain (rt) on the path to build it with"
    { mkdir -p "$crate/out" && true >"$crate/out/lock"; } 2>/dev/null ||
        fail "$not_built" "the program is not built, and $crate/out can't be written"
    take_lock
    is_current || prove_and_build
    exec 9>&-
}

prove_and_build() {
    say "proving and building the program: $first_build the first time, less after a change"
    make_scratch
    rm -f "$record"
    begin_record
    sources=$(sum_of_sources)
    since=$(date +%s)
    start_toolchain
    show_progress
    wait "$builder"
    ended=$?
    builder=
    cp "$scratch/log" "$crate/out/build.log"
    [ $ended -eq 0 ] || {
        errors_of "$scratch/log" >&2
        fail "$not_built" "the program was not built: all that the toolchain said is in $crate/out/build.log"
    }
    begin_record
    [ "$(sum_of_sources)" = "$sources" ] ||
        fail "$not_built" "a source was changed while the program was built: call t1s again"
    write_record "$sources" || fail "$not_built" "$crate/out can't be written"
    rm -f "$begun"
    say "the program is proved and built ($(elapsed))"
}

# What the toolchain found wrong, or the end of what it said.
errors_of() {
    grep -E '(^|: )error|: not proved$' "$1" | head -n 20 | grep . || tail -n 20 "$1"
}

# Has the toolchain prove and build the program alone, without tests and must-fail edits, and run it once on a small script.
start_toolchain() {
    printf 't1s 1\nnode 0 0 0\nend 1\n' >"$scratch/script"
    (CDPATH='' cd -- "$crate" && TMPDIR=$scratch exec rt run -- check) <"$scratch/script" >"$scratch/log" 2>&1 &
    builder=$!
}

elapsed() {
    seconds=$(($(date +%s) - since))
    if [ $seconds -lt 60 ]; then echo "$seconds s"; else echo "$((seconds / 60)) min $((seconds % 60)) s"; fi
}

# Shows which crates are proved, until the toolchain ends: one line that is rewritten on a terminal, a line each elsewhere.
show_progress() {
    awk -v top=t1s -f "$tools/crates.awk" "$here/crates.txt" >"$scratch/order"
    told=0
    pause=0.1
    while :; do
        is_over=
        kill -0 "$builder" 2>/dev/null || is_over=yes
        awk -f "$tools/progress.awk" "$scratch/order" "$scratch/log" >"$scratch/progress"
        if [ -t 2 ]; then
            printf '\r\033[Kt1s: %s (%s)' "$(tail -n 1 "$scratch/progress")" "$(elapsed)" >&2
        else
            grep ' proved, ' "$scratch/progress" | tail -n +$((told + 1)) | sed 's/^/t1s: /' >&2
            told=$(grep -c ' proved, ' "$scratch/progress")
        fi
        [ -z "$is_over" ] || break
        sleep $pause
        [ $(($(date +%s) - since)) -lt 3 ] || pause=1
    done
    [ ! -t 2 ] || printf '\r\033[K' >&2
}
