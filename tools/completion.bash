# Completion of oe and its tools for bash.
_oe() {
    local word=${COMP_WORDS[COMP_CWORD]} before=${COMP_WORDS[COMP_CWORD - 1]}
    COMPREPLY=()
    case $COMP_CWORD,$before in
        1,*) mapfile -t COMPREPLY < <(compgen -W "asof ceiling desk generate serve stations --help --version" -- "$word") ;;
        2,asof | 2,ceiling | 2,desk | 2,stations) mapfile -t COMPREPLY < <(compgen -W "--db" -- "$word") ;;
        *,--listen) mapfile -t COMPREPLY < <(compgen -W "127.0.0.1:8077" -- "$word") ;;
        *,--workers | *,--turns) ;;
        *,--db | *,=) mapfile -t COMPREPLY < <(compgen -f -- "$word") ;;
        *) [[ ${COMP_WORDS[1]} != serve ]] || mapfile -t COMPREPLY < <(compgen -W "--listen --workers --turns --db" -- "$word") ;;
    esac
}

# A tool's words are those of its own --help.
_oe_tool() {
    local word=${COMP_WORDS[COMP_CWORD]}
    COMPREPLY=()
    [[ $word != -* ]] || mapfile -t COMPREPLY < <(compgen -W "$("$1" --help 2>/dev/null | grep -oE -- '--[a-z]+(-[a-z]+)*' | sort -u)" -- "$word")
}

complete -o filenames -o default -F _oe oe
complete -o filenames -o default -F _oe_tool oe-clean oe-convert oe-draw oe-from-nasr oe-from-points oe-high oe-letter oe-list oe-map oe-say
