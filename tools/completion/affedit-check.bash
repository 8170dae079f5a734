# Completion of affedit-check for bash. Installed as share/bash-completion/completions/affedit-check; or source it.

_affedit_check() {
    local word=${COMP_WORDS[COMP_CWORD]} before=${COMP_WORDS[COMP_CWORD - 1]} command=${COMP_WORDS[0]} front=""
    COMPREPLY=()
    # `--format=json` is three words to bash.
    if [ "$before" = = ] && [ "$COMP_CWORD" -ge 2 ]; then
        before=${COMP_WORDS[COMP_CWORD - 2]}
    elif [ "$word" = = ]; then
        word=''
    fi
    case $before in
        -d)
            # Of several names the last one is completed.
            case $word in
                */*) ;;
                *,*) front=${word%,*}, ;;
            esac
            if [[ $word != */* ]]; then
                mapfile -t COMPREPLY < <(compgen -P "$front" -W "$("$command" -D 2> /dev/null | cut -f 1)" -- "${word#"$front"}")
            fi
            [ ${#COMPREPLY[@]} -ne 0 ] || mapfile -t COMPREPLY < <(compgen -f -X '!*.aff' -- "$word"; compgen -d -S / -- "$word")
            compopt -o nospace 2> /dev/null
            return
            ;;
        --format)
            mapfile -t COMPREPLY < <(compgen -W 'text json github' -- "$word")
            return
            ;;
        --add | --exclude) return ;;
        -p) ;;
        *)
            if [[ $word == -* ]]; then
                mapfile -t COMPREPLY < <(compgen -W '-d -D -p -l --add --format --count --all --hidden --exclude --help --version' -- "$word")
                return
            fi
            ;;
    esac
    compopt -o filenames 2> /dev/null
    mapfile -t COMPREPLY < <(compgen -f -- "$word")
}

complete -F _affedit_check affedit-check
