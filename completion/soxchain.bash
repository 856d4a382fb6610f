# Completion of soxchain, soxchain-plan and soxchain-job for bash.

# The names of the effects, as the program lists them.
_soxchain_effects() {
    soxchain --help 2>/dev/null | sed -n '/^effects:/,/^$/s/^  \([a-z]*\) .*/\1/p' | sort -u
}

# Which word is completed: 0 IN, 1 OUT, 2 an effect or one of its words.
_soxchain_place() {
    local files=0 at
    for ((at = 1; at < COMP_CWORD; at++)); do
        case ${COMP_WORDS[at]} in
            -t | -b | --every | --record | --progress) ((at++)) ;;
            -) ((files++)) ;;
            -*) ;;
            *) ((files++)) ;;
        esac
        ((files == 2)) && break
    done
    echo "$files"
}

_soxchain() {
    local word=${COMP_WORDS[COMP_CWORD]} before=${COMP_WORDS[COMP_CWORD - 1]} place options
    place=$(_soxchain_place)
    COMPREPLY=()
    if ((place < 2)); then
        case $before in
            -t) mapfile -t COMPREPLY < <(compgen -W 'wav au' -- "$word"); return ;;
            -b) mapfile -t COMPREPLY < <(compgen -W '8 16 24 32' -- "$word"); return ;;
            --progress) mapfile -t COMPREPLY < <(compgen -W 'auto always never' -- "$word"); return ;;
            --every) return ;;
        esac
        options='-D -t'
        ((place == 1)) && options='-D -t -b'
        ((COMP_CWORD == 1)) && options='-D -t --help --version'
        ((COMP_CWORD == 1)) && [[ ${COMP_WORDS[0]} == *-plan ]] && options+=' --json'
        ((place == 0)) && [[ ${COMP_WORDS[0]} == *-job ]] && options+=' --every --record --sha256 --progress --status --abandon'
        if [[ $word == -* ]]; then
            mapfile -t COMPREPLY < <(compgen -W "$options" -- "$word")
        else
            compopt -o filenames 2>/dev/null
            mapfile -t COMPREPLY < <(compgen -f -- "$word")
        fi
        return
    fi
    case $before in
        fade) mapfile -t COMPREPLY < <(compgen -W 't' -- "$word") ;;
        fir)
            compopt -o filenames 2>/dev/null
            mapfile -t COMPREPLY < <(compgen -f -- "$word")
            ;;
        *) mapfile -t COMPREPLY < <(compgen -W "$(_soxchain_effects)" -- "$word") ;;
    esac
}

complete -F _soxchain soxchain soxchain-plan soxchain-job
