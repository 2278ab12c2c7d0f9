# Completion of finder for bash, made by tools/reference.
_finder_files() {
    compopt -o filenames 2>/dev/null
    mapfile -t COMPREPLY < <(compgen -f -X "$1" -- "$2"; compgen -d -- "$2")
}

_finder() {
    local word=${COMP_WORDS[COMP_CWORD]}
    COMPREPLY=()
    case "$COMP_CWORD ${COMP_WORDS[1]}" in
        "1 "*) mapfile -t COMPREPLY < <(compgen -W "find route k-find check replay survey drill" -- "$word") ;;
        "2 find") : ;;
        "3 find") mapfile -t COMPREPLY < <(compgen -W any -- "$word") ;;
        "4 find") : ;;
        "5 find") mapfile -t COMPREPLY < <(compgen -W any -- "$word") ;;
        *" find") _finder_files '!*.json' "$word" ;;
        "2 route") : ;;
        "3 route") mapfile -t COMPREPLY < <(compgen -W any -- "$word") ;;
        "4 route") : ;;
        "5 route") mapfile -t COMPREPLY < <(compgen -W any -- "$word") ;;
        *" route") _finder_files '!*.json' "$word" ;;
        "2 k-find") : ;;
        "3 k-find") : ;;
        "4 k-find") mapfile -t COMPREPLY < <(compgen -W any -- "$word") ;;
        "5 k-find") : ;;
        "6 k-find") mapfile -t COMPREPLY < <(compgen -W any -- "$word") ;;
        *" k-find") _finder_files '!*.json' "$word" ;;
        "2 check") _finder_files "" "$word" ;;
        *" check") _finder_files '!*.json' "$word" ;;
        "2 replay") _finder_files "" "$word" ;;
        *" replay") _finder_files '!*.json' "$word" ;;
        *" survey") _finder_files '!*.json' "$word" ;;
        "2 drill") : ;;
    esac
}

complete -F _finder finder
