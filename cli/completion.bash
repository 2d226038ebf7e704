# Completion of `sim0mq` for bash: commands, the options of each, and files.
_sim0mq() {
    local word=$2 before=$3 options
    COMPREPLY=()
    if [ "$COMP_CWORD" -eq 1 ]; then
        mapfile -t COMPREPLY < <(compgen -W 'list blank value record messages show salvage check decks help --help --version' -- "$word")
        return
    fi
    case $before in
        --deck) mapfile -t COMPREPLY < <(compgen -W '0 1 2 3 4 5 6 7 8 9 10 11 12 13 14 15' -- "$word"); return ;;
        --at) return ;;
        -o | --output | --svg) compopt -o filenames 2>/dev/null; mapfile -t COMPREPLY < <(compgen -f -- "$word"); return ;;
    esac
    case ${COMP_WORDS[1]} in
        list | value | messages | check) options='--json --help' ;;
        blank | record | salvage) options='-o --output --force --help' ;;
        show) options='--json --raw -o --output --force --help' ;;
        decks) options='--json --deck --at --history --svg --force --help' ;;
        help)
            mapfile -t COMPREPLY < <(compgen -W 'list blank value record messages show salvage check decks' -- "$word")
            return
            ;;
        *) return ;;
    esac
    case $word in
        -*) mapfile -t COMPREPLY < <(compgen -W "$options" -- "$word") ;;
        *) compopt -o filenames 2>/dev/null; mapfile -t COMPREPLY < <(compgen -f -- "$word") ;;
    esac
}
complete -F _sim0mq sim0mq
