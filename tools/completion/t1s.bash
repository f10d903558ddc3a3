# bash completion for t1s. Written by tools/pages.sh from the tables of tools/.
_t1s() {
    local word=${COMP_WORDS[COMP_CWORD]} command=${COMP_WORDS[1]-} words='' first=99
    if [ "$COMP_CWORD" -eq 1 ]; then
        words='run check json capture pcap decode gen load picture wave help install --help --version'
    else
        case $command in
        run) words='--summary --events' ;;
        check) words='' ;;
        json) words='' ;;
        capture) words='--force' ;;
        pcap) words='--force' ;;
        decode) words='' ;;
        gen) words='' ;;
        load) words='' ;;
        picture) words='' ;;
        wave) words='' ;;
        help) words='' ;;
        install) words='' ;;
        esac
        case $command in
        run) first=2 ;;
        check) first=2 ;;
        json) first=2 ;;
        capture) first=3 ;;
        pcap) first=3 ;;
        decode) first=2 ;;
        install) compopt -o dirnames 2>/dev/null ;;
        picture | wave) first=2 ;;
        esac
        [ "$command" != help ] || words='run check json capture pcap decode gen load picture wave help install '
    fi
    COMPREPLY=($(compgen -W "$words" -- "$word"))
    if [ "$COMP_CWORD" -ge "$first" ]; then compopt -o default 2>/dev/null; fi
}
complete -F _t1s t1s ./t1s
