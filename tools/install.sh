# shellcheck shell=sh
# Copies what a user calls below a folder, so that it runs there without the checkout. Sourced by t1s.

# Copies the file $1 to $2 with the mode $3, or ends the script.
put() {
    { mkdir -p "$(dirname -- "$2")" && cp -f "$1" "$2.new" && chmod "$3" "$2.new" && mv -f "$2.new" "$2"; } 2>/dev/null ||
        fail "$write_fault" "$2 can't be written"
    say "wrote $2"
}

# Answers `install PREFIX`: the script, the proved program and the tables, the manual page and the completions.
install_program() {
    [ $# -gt 0 ] || refuse_words "\`install\` lacks PREFIX, the folder below which all is copied" install
    [ $# -eq 1 ] || refuse_words "\`$(shown "$2")\` is a word too many" install
    [ -n "$1" ] || refuse_words "an empty word names no folder" install
    [ -n "$record" ] || fail "$not_built" "\`install\` copies from the checkout in which the program was built"
    case $1 in
    /*) prefix=$1 ;;
    *) prefix=./$1 ;;
    esac
    is_current || build
    parts=$prefix/libexec/t1s
    put "$program" "$parts/program" 755
    # The program that draws comes along where a first picture or dump has built it.
    [ ! -x "$here/crates/t1s_draw/out/t1s_draw" ] || put "$here/crates/t1s_draw/out/t1s_draw" "$parts/drawer" 755
    for part in "$tools"/*.sh "$tools"/*.awk "$tools"/*.txt; do
        put "$part" "$parts/${part##*/}" 644
    done
    put "$here/docs/t1s.1" "$prefix/share/man/man1/t1s.1" 644
    put "$here/docs/formats.md" "$prefix/share/doc/t1s/formats.md" 644
    put "$tools/completion/t1s.bash" "$prefix/share/bash-completion/completions/t1s" 644
    put "$tools/completion/_t1s" "$prefix/share/zsh/site-functions/_t1s" 644
    put "$here/t1s" "$prefix/bin/t1s" 755
}
