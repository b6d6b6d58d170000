# Completion of langtag's words for bash.
_langtag() {
    local word=${COMP_WORDS[COMP_CWORD]} place=1 at
    COMPREPLY=()
    if [ "$COMP_CWORD" = 1 ]; then
        mapfile -t COMPREPLY < <(compgen -W 'classify check canon codes tsv csv match extlang equal explain verify upgrade show json help --help --version' -- "$word")
        return
    fi
    case ${COMP_WORDS[1]}:${COMP_WORDS[COMP_CWORD - 1]} in
        tsv:--codes | csv:--codes)
            mapfile -t COMPREPLY < <(compgen -f -- "$word")
            compopt -o filenames 2> /dev/null
            return
            ;;
        match:--accept) return ;;
    esac
    case ${COMP_WORDS[1]}:$word in
        csv:-*)
            mapfile -t COMPREPLY < <(compgen -W '--delimiter --keep --codes --summary --help' -- "$word")
            return
            ;;
        tsv:-*)
            mapfile -t COMPREPLY < <(compgen -W '--heading --keep --codes --summary --help' -- "$word")
            return
            ;;
        match:-*)
            mapfile -t COMPREPLY < <(compgen -W '--extended --lookup --accept --help' -- "$word")
            return
            ;;
        show:-*)
            mapfile -t COMPREPLY < <(compgen -W '--json --help' -- "$word")
            return
            ;;
        canon:-* | codes:-*)
            mapfile -t COMPREPLY < <(compgen -W '--summary --help' -- "$word")
            return
            ;;
    esac
    # the place of the word among those that are no options, and no option's
    for ((at = 1; at < COMP_CWORD; at++)); do
        case ${COMP_WORDS[at]} in
            --codes | --delimiter | --accept) at=$((at + 1)) ;;
            -*) ;;
            *) place=$((place + 1)) ;;
        esac
    done
    case ${COMP_WORDS[1]}:$place in
        check:2 | canon:2 | codes:2 | codes:3 | tsv:2 | csv:2 | match:2 | extlang:2 | equal:2 | explain:2 | verify:2 | upgrade:2 | upgrade:3 | show:2 | json:2)
            # @ is the installed registry
            mapfile -t COMPREPLY < <(compgen -W @ -- "$word"; compgen -f -- "$word")
            compopt -o filenames 2> /dev/null
            ;;
        help:2)
            mapfile -t COMPREPLY < <(compgen -W 'classify check canon codes tsv csv match extlang equal explain verify upgrade show json' -- "$word")
            ;;
    esac
}
complete -F _langtag langtag
