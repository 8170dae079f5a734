# How the launcher understands words that the program takes in one order only.
# shellcheck shell=bash disable=SC2034

# arrange COMMAND WORD..: sets `arranged` to the words of the form that these mean: options after the names, `--workers N` before `--own OWN`,
# each in two words, and /dev/stdin for a `-` in the place of FILE or SCRIPT, if there is no file of that name. `doubt` is set if the words may
# mean another thing too. Fails if they are of no form in any order. The words of a form stay as they are: none of its names is an option.
arrange() {
    local command=$1 count=3 word names=() workers=() own=()
    doubt='' arranged=()
    case $command in
        check | team) ;;
        edit) count=2 ;;
        *) return 1 ;;
    esac
    shift
    while [ $# -gt 0 ]; do
        word=$1
        shift
        if [[ $word != --* ]]; then
            names+=("$word")
            continue
        fi
        # A file may have the name of an option.
        [ ! -e "$word" ] || doubt=1
        [[ $word != --*=* ]] || set -- "${word#*=}" "$@"
        [[ ${1-} && $1 != --* ]] || return 1
        case $command:${word%%=*} in
            *:--workers) [ ${#workers[@]} = 0 ] || doubt=1; workers=(--workers "$1") ;;
            check:--own | edit:--own) [ ${#own[@]} = 0 ] || doubt=1; own=(--own "$1") ;;
            *) return 1 ;;
        esac
        shift
    done
    [ ${#names[@]} = "$count" ] || return 1
    [ "${names[2]-}" != - ] || [ -e ./- ] || names[2]=/dev/stdin
    arranged=("$command" "${names[@]}" "${workers[@]}" "${own[@]}")
}
