# shellcheck shell=bash
# Completions of flt for bash.
_flt() {
    local word=${COMP_WORDS[COMP_CWORD]} command=${COMP_WORDS[1]} flt=${COMP_WORDS[0]}
    COMPREPLY=()
    if [ "$COMP_CWORD" = 1 ]; then
        mapfile -t COMPREPLY < <(compgen -W "$("$flt" --words commands 2> /dev/null)" -- "$word")
        return
    fi
    case $command:$COMP_CWORD in
        example:2) mapfile -t COMPREPLY < <(compgen -W "$("$flt" --words examples 2> /dev/null)" -- "$word") ;;
        example:3) mapfile -t COMPREPLY < <(compgen -W --explain -- "$word") ;;
        run:2 | build:2) mapfile -t COMPREPLY < <(compgen -W "$("$flt" --words programs 2> /dev/null)" -- "$word") ;;
        help:2) mapfile -t COMPREPLY < <(compgen -W "$("$flt" --words commands 2> /dev/null)" -- "$word") ;;
        new:2) mapfile -t COMPREPLY < <(compgen -W 'driver filter' -- "$word") ;;
        check:*) mapfile -t COMPREPLY < <(compgen -W '--junit --strict --skip' -- "$word") ;;
        explain:*) mapfile -t COMPREPLY < <(compgen -W '--from --to' -- "$word") ;;
    esac
}
complete -o bashdefault -o default -F _flt flt
