# Completions of rcv, rcv-show and rcv-guide for bash: source this file.

# The words that an option of the program may stand with, the option's values, and what may come next.
_rcv_complete() {
    local current=${COMP_WORDS[COMP_CWORD]} before=${COMP_WORDS[COMP_CWORD - 1]} command= word
    for word in "${COMP_WORDS[@]:1:COMP_CWORD-1}"; do
        case " $1 " in *" $word "*) command=$word ;; esac
    done
    case $before in
    --workers) COMPREPLY=($(compgen -W "1 2 3 4 5 6 7 8" -- "$current")) && return ;;
    --code)
        COMPREPLY=($(compgen -W "$(echo {10..36} {40..43} {50..55})" -- "$current")) && return
        ;;
    --role | --number | --sessions | --session) COMPREPLY=() && return ;;
    esac
    # The table of rcv has no options.
    [[ $command == table && $1 != *points* ]] && COMPREPLY=() && return
    case $command in
    "") COMPREPLY=($(compgen -W "$1" -- "$current")) ;;
    run) COMPREPLY=($(compgen -W "--workers --json --sessions" -- "$current")) ;;
    journal) COMPREPLY=($(compgen -W "--session" -- "$current")) ;;
    project) COMPREPLY=($(compgen -W "--role" -- "$current")) ;;
    role) COMPREPLY=($(compgen -W "--role --json" -- "$current")) ;;
    table) COMPREPLY=($(compgen -W "--json" -- "$current")) ;;
    points) COMPREPLY=($(compgen -W "--json" -- "$current")) ;;
    failures) COMPREPLY=($(compgen -W "--text --json" -- "$current")) ;;
    gen) COMPREPLY=($(compgen -W "--number" -- "$current")) ;;
    explain) COMPREPLY=($(compgen -W "--code" -- "$current")) ;;
    *) COMPREPLY=() ;;
    esac
}

_rcv() { _rcv_complete "run check project table gen replay line"; }
_rcv_show() { _rcv_complete "journal told replay table role protocol points failures explain"; }

complete -F _rcv rcv ./rcv
complete -F _rcv_show rcv-show ./rcv-show
complete -W "--told" rcv-guide ./rcv-guide
