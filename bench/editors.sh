#!/usr/bin/env bash
# The median time from a key to its marks in Neovim and Emacs, with the plugins of editors/, each in a terminal of 50 lines. Beside them are
# Neovim's and Vim's own `spell`, and flyspell with hunspell, on the same texts: 5,000 and 100,000 lines of ten words, of which one in twenty
# or all are marked. What is not installed is named, and left out. It needs Debian's hunspell-en-us or another dictionary.
# Each row has the median, the times that one key in ten and nine in ten were below, and how many keys. Of the plugins it has also how long
# all lines took when the buffer was opened, and how many marks there are. A row `plain` is the editor without marks. A row `marks alone` is
# the editor with marks like those of the plugin on the screen, and no plugin: what it has more than `plain` is the editor's own time.
# In Emacs the rows `left to right` have `bidi-paragraph-direction` set: without it Emacs draws the whole window anew for each key.
# Words: KEYS, how many keys, 200 without it; DICTIONARY, a name or path, en_US without it, of the plugins. PROGRAM, of the environment, is
# another launcher.
set -euo pipefail
top=$(cd "$(dirname "$0")/.." && pwd)
work=$(mktemp -d)
trap 'rm -rf "$work"' EXIT
export TOP=$top WORK=$work KEYS=${1:-200} DICTIONARY=${2:-en_US} PROGRAM=${PROGRAM:-$top/affedit} REPORT=$work/report TERM=xterm LC_ALL=C.UTF-8
# Nothing is read from the user's own folders, nor written there.
export HOME=$work/home
mkdir "$HOME"
unset VIMINIT NVIM_LISTEN_ADDRESS XDG_CACHE_HOME XDG_CONFIG_HOME XDG_STATE_HOME

# has WHAT COMMAND..: whether the commands are there; says so where they are not.
has() {
    local what=$1 name
    shift
    for name in "$@"; do
        if [ -z "$(command -v "$name")" ]; then
            echo "$what is left out: there is no command $name"
            return 1
        fi
    done
}

# is_dictionary NAME: whether the plugins find it.
is_dictionary() {
    local folder stem=${1%.aff}
    if [[ $stem == */* ]]; then
        [ -r "$stem.aff" ]
        return
    fi
    while read -r folder; do
        [ ! -r "$folder/$stem.aff" ] || return 0
    done < <(tr ':' '\n' <<< "${DICPATH:-}:/usr/share/hunspell:/usr/share/myspell/dicts")
    return 1
}

# in_terminal WHAT COMMAND: runs it in a terminal, and prints its report, or that there is none.
in_terminal() {
    rm -f "$REPORT"
    timeout -k 5 300 script -qec "stty rows 50 cols 100; exec $2" /dev/null < /dev/null > /dev/null || true
    if [ -s "$REPORT" ]; then
        cat "$REPORT"
    else
        echo "$1: no report"
    fi
}

# name_of KIND: what its row is called.
name_of() {
    if [ "$1" = marks ]; then
        echo 'marks alone'
    else
        echo "$1"
    fi
}

has 'Every editor' script stty || exit 0
kinds=(marks affedit)
if ! is_dictionary "$DICTIONARY"; then
    echo "the plugins are left out: there is no dictionary $DICTIONARY; Debian has it in hunspell-en-us"
    kinds=()
else
    # The program is built here, and not within an editor.
    status=0
    "$PROGRAM" check "$top/examples/sample.aff" "$top/examples/sample.dic" "$top/examples/sample.txt" > /dev/null || status=$?
    if [ "$status" != 1 ]; then
        echo "there is no program to measure: status $status" >&2
        exit 1
    fi
fi
editors=''
! has Neovim nvim || editors+=' nvim'
! has Vim vim || editors+=' vim'
! has Emacs emacs || editors+=' emacs'
flyspell=(flyspell)
if [[ $editors == *emacs* ]]; then
    has flyspell hunspell || flyspell=()
    export COMPILED=$work/compiled
    mkdir "$COMPILED"
    cp "$top"/editors/emacs/*.el "$COMPILED"
    (cd "$COMPILED" && emacs -Q --batch -L . -f batch-byte-compile ./*.el > /dev/null 2>&1)
fi
for lines in 5000 100000; do
    for sparse in 20 1; do
        export TEXT=$work/text-$lines-$sparse
        awk -v LINES="$lines" -v SPARSE="$sparse" -f "$top/bench/editors/text.awk" > "$TEXT"
        echo "$lines lines, one word in $sparse marked"
        for editor in $editors; do
            case $editor in
                nvim)
                    for kind in plain "${kinds[@]}" spell; do
                        name=$(name_of "$kind")
                        KIND=$kind NAME=$name in_terminal "Neovim, $name" "nvim --clean -i NONE -c 'luafile $top/bench/editors/nvim.lua' '$TEXT'"
                    done
                    ;;
                vim) in_terminal Vim "vim -u NONE -i NONE -n -S '$top/bench/editors/vim.vim' '$TEXT'" ;;
                emacs)
                    for kind in plain "${kinds[@]}" "${flyspell[@]}"; do
                        name=$(name_of "$kind")
                        KIND=$kind NAME=$name in_terminal "Emacs, $name" "emacs -nw -Q -l '$top/bench/editors/emacs.el'"
                    done
                    for kind in plain "${kinds[@]}"; do
                        name="$(name_of "$kind"), left to right"
                        DIRECTION=left-to-right KIND=$kind NAME=$name in_terminal "Emacs, $name" "emacs -nw -Q -l '$top/bench/editors/emacs.el'"
                    done
                    ;;
            esac
        done
    done
done
