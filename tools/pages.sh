#!/bin/sh
# Writes the manual page and the completions from the tables of tools/:
#
#   sh tools/pages.sh             docs/t1s.1, tools/completion/t1s.bash and tools/completion/_t1s
#   sh tools/pages.sh FOLDER      the same three below FOLDER, for the check that they agree
set -u

here=$(CDPATH='' cd -P -- "$(dirname -- "$0")/.." && pwd -P) || exit 1
tools=$here/tools
to=${1:-$here}
version=$(sed -n 's/^version=//p' "$here/t1s")
# shellcheck source=tools/words.sh
. "$tools/words.sh"

# A text with what roff would read escaped.
roff() {
    sed -e 's/\\/\\e/g' -e 's/-/\\-/g' -e "s/^\\([.']\\)/\\\\\\&\\1/" -e 's/`\([^`]*\)`/\\fB\1\\fR/g'
}

# The rows of standard input, TERM|TEXT, as a list.
tagged() {
    roff | awk -F '|' '{ printf ".TP\n.B %s\n%s.\n", $1, $2 }'
}

commands() {
    rows commands.txt | cut -d '|' -f 1
}

# The rows COMMAND WITH ITS ARGUMENTS|WHAT IT DOES.
described() {
    commands | while read -r word; do
        echo "$(usage_of "$word")|$(command_column "$word" 5)"
    done
}

# The numbers that commands take. Where a command has another range than the first one that takes a number of this name, it is named.
numbers() {
    rows arguments.txt | while IFS='|' read -r name what; do
        ranges=$(rows commands.txt | NAME=$name awk -F '|' '{
            count = split($2, arguments, " ")
            for (i = 1; i <= count; i++) {
                split(arguments[i], part, "[=-]")
                if (part[1] != ENVIRON["NAME"]) continue
                range = part[2] " to " part[3]
                if (first == "") printf "%s", first = range
                else if (range != first) printf ", and %s with `%s`", range, $1
            }
        }')
        echo "$name|$what, $ranges"
    done
}

# Calls to begin with.
examples() {
    cat <<'ROFF'
t1s run examples/three_nodes/script.t1s
t1s run \-\-summary examples/three_nodes/script.t1s
t1s check examples/unfit/script.t1s
t1s capture 2 examples/three_nodes/script.t1s > node_2.t1sc
t1s decode node_2.t1sc
t1s pcap 2 examples/one_frame/script.t1s > node_2.pcap
ROFF
}

manual() {
    cat <<ROFF
.\" Written by tools/pages.sh from the tables of tools/.
.TH T1S 1 "" "t1s $version" "User commands"
.SH NAME
t1s \\- a workbench for 10BASE\\-T1S segments with PLCA
.SH SYNOPSIS
.nf
$(commands | while read -r word; do usage_of "$word"; done | sed 's/^/t1s /' | roff)
t1s \\-\\-version
.fi
.SH DESCRIPTION
A 10BASE\\-T1S segment is one pair that up to 32 nodes share at 10 Mb/s. They take turns by PLCA. \\fBt1s\\fR
plays a segment that a script describes, bit time by bit time, and reads and writes captures of what a node hears. A bit time of
100 ns is called a tick.
.PP
FILE is the input; without it, or with \\-, that is standard input. What is written to standard output, and the exit status, are those
of the proved program, which is proved and built on first use. On a refusal, standard error has the place and the rule in plain words.
.SH COMMANDS
$(described | tagged)
.PP
Numbers are plain decimal:
$(numbers | tagged)
.SH OPTIONS
$(rows options.txt | cut -d '|' -f 1,3 | tagged)
.SH EXIT STATUS
$(rows statuses.txt | tagged)
.SH EXAMPLES
.nf
$(examples)
.fi
.SH SEE ALSO
docs/formats.md describes scripts, reports, captures and refusals.
ROFF
}

# The options that stand behind the word of a command, one row 'command) options' each.
options_by_command() {
    commands | while read -r word; do
        echo "        $word) words='$(command_column "$word" 4)' ;;"
    done
}

# Whether files complete a command, and where they begin: 'command) number of the first word that may be a file'.
files_by_command() {
    commands | while read -r word; do
        case $(command_column "$word" 3) in
        script | capture) echo "        $word) first=$(($(command_column "$word" 2 | wc -w) + 2)) ;;" ;;
        esac
    done
}

bash_completion() {
    cat <<BASH
# bash completion for t1s. Written by tools/pages.sh from the tables of tools/.
_t1s() {
    local word=\${COMP_WORDS[COMP_CWORD]} command=\${COMP_WORDS[1]-} words='' first=99
    if [ "\$COMP_CWORD" -eq 1 ]; then
        words='$(commands | tr '\n' ' ')--help --version'
    else
        case \$command in
$(options_by_command)
        esac
        case \$command in
$(files_by_command)
        install) compopt -o dirnames 2>/dev/null ;;
        picture | wave) first=2 ;;
        esac
        [ "\$command" != help ] || words='$(commands | tr '\n' ' ')'
    fi
    COMPREPLY=(\$(compgen -W "\$words" -- "\$word"))
    if [ "\$COMP_CWORD" -ge "\$first" ]; then compopt -o default 2>/dev/null; fi
}
complete -F _t1s t1s ./t1s
BASH
}

# The arguments of the command $1 as zsh completes them.
zsh_arguments() {
    for option in $(command_column "$1" 4); do
        what=$(rows options.txt | awk -F '|' -v option="$option" '$1 == option { print $3 }')
        printf " '%s[%s]'" "$option" "$what"
    done
    for argument in $(command_column "$1" 2); do
        case $argument in
        PREFIX) printf " '1:folder:_directories'" ;;
        '[FROM' | 'UNTIL]') printf " ':a tick:'" ;;
        '[K]') printf " ':the number of a node, 0 to 31:'" ;;
        '[FILE]') printf " ':file:_files'" ;;
        *COMMAND*) printf " '1:command:(%s)'" "$(commands | tr '\n' ' ')" ;;
        *) printf " ':%s:'" "$(meaning_of "$argument")" ;;
        esac
    done
    case $(command_column "$1" 3) in script | capture) printf " ':file:_files'" ;; esac
}

zsh_completion() {
    cat <<ZSH
#compdef t1s
# zsh completion for t1s. Written by tools/pages.sh from the tables of tools/.
_t1s() {
    local -a commands
    commands=(
$(rows commands.txt | awk -F '|' '{ gsub(/\047/, "\047\\\047\047", $5); printf "        \047%s:%s\047\n", $1, $5 }')
    )
    if (( CURRENT == 2 )); then
        _describe command commands
        _arguments '--help[write this help]' '--version[write the version]'
        return
    fi
    local command=\$words[2]
    shift words
    (( CURRENT-- ))
    case \$command in
$(commands | while read -r word; do echo "    $word) _arguments$(zsh_arguments "$word") ;;"; done)
    esac
}
_t1s "\$@"
ZSH
}

mkdir -p "$to/docs" "$to/tools/completion" &&
    manual >"$to/docs/t1s.1" &&
    bash_completion >"$to/tools/completion/t1s.bash" &&
    zsh_completion >"$to/tools/completion/_t1s"
