# Completions of ringd and cinoweta for bash. Their words are those that the programs tell by --help.

# options PROGRAM WORD..: those that it tells.
_ringd_options() { "$@" --help 2> /dev/null | grep -o -- '--[a-z-]*' | sort -u; }

_ringd() {
    local word=${COMP_WORDS[COMP_CWORD]}
    case ${COMP_WORDS[COMP_CWORD - 1]} in
        --settings) mapfile -t COMPREPLY < <(compgen -f -- "$word") ;;
        *) mapfile -t COMPREPLY < <(compgen -W "$(_ringd_options "$1")" -- "$word") ;;
    esac
}

_cinoweta() {
    local word=${COMP_WORDS[COMP_CWORD]} command='' place commands
    commands=$("$1" --help 2> /dev/null | sed -n 's/^    \([a-z]\{1,\}\)\( .*\)\{0,1\}$/\1/p')
    for ((place = 1; place < COMP_CWORD; place++)); do
        if grep -qx -- "${COMP_WORDS[place]}" <<< "$commands"; then command=${COMP_WORDS[place]}; break; fi
    done
    if [[ $word == -* ]]; then
        # shellcheck disable=SC2086
        mapfile -t COMPREPLY < <(compgen -W "$(_ringd_options "$1" $command)" -- "$word")
    elif [[ -z $command ]]; then
        mapfile -t COMPREPLY < <(compgen -W "$commands" -- "$word")
    else
        mapfile -t COMPREPLY < <(compgen -f -- "$word")
    fi
}

complete -o filenames -F _ringd ringd
complete -o filenames -F _cinoweta cinoweta
