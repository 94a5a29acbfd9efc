# Completions of sf for bash.

_sf() {
    local word=${COMP_WORDS[COMP_CWORD]} before=${COMP_WORDS[COMP_CWORD-1]} at
    local all='-p --profile --explain --no-explain -h --help' records='--limit --line-buffered'
    local lines='-l --lines -s --skip -w --whole -k --keep-going -q --quiet'
    local scan='-S --strict -o --output --print --names -e --tag --matching --ignore'
    COMPREPLY=()
    # the file of a redirection
    if [[ $before == *[\<\>]* ]]; then
        compopt -o default
        return
    fi
    if (( COMP_CWORD == 1 )); then
        COMPREPLY=( $(compgen -W 'show scan print check copy help -h --help -V --version' -- "$word") )
        return
    fi
    case $before in
        --limit|--skip|-s|-e|--print|--names|--ignore|--width) return ;;
    esac
    if [[ $before == --profile || $before == -p ]]; then
        COMPREPLY=( $(compgen -W '1 2 3' -- "$word") )
        return
    fi
    if [[ $before == --output || $before == -o ]]; then
        COMPREPLY=( $(compgen -W 'plain tsv json csv' -- "$word") )
        return
    fi
    # what stands after -- is no option
    for (( at = 2; at < COMP_CWORD; at++ )); do
        [[ ${COMP_WORDS[at]} == -- ]] && return
    done
    case ${COMP_WORDS[1]} in
        help) (( COMP_CWORD == 2 )) && COMPREPLY=( $(compgen -W 'show scan print check copy formats help' -- "$word") ) ;;
        scan)
            if [[ $word == -* ]]; then
                COMPREPLY=( $(compgen -W "$all $records $lines $scan" -- "$word") )
            else
                compopt -o default
            fi
            ;;
        copy)
            if [[ $word == -* ]]; then
                COMPREPLY=( $(compgen -W "$all $records $lines" -- "$word") )
            else
                compopt -o default
            fi
            ;;
        show) [[ $word == -* ]] && COMPREPLY=( $(compgen -W "$all" -- "$word") ) ;;
        print) [[ $word == -* ]] && COMPREPLY=( $(compgen -W "$all --raw" -- "$word") ) ;;
        check) [[ $word == -* ]] && COMPREPLY=( $(compgen -W "$all --width" -- "$word") ) ;;
    esac
}
complete -F _sf sf
