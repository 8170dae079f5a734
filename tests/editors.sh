#!/usr/bin/env bash
# The plugins of editors/ in Neovim and in Emacs: after each of many edits the marks that they show are compared with what `check` prints of
# the buffer's text, and then what is shown and told where something is wrong. An editor that is not installed is skipped, and reported.
# Words: EDITS, how many random edits of each size of text, 100 without it; SEED, what they are drawn from. The status is 0 where nothing
# differs, and no process is left. PROGRAM, of the environment, is another launcher. No check depends on how quick the machine is.
set -euo pipefail
top=$(cd "$(dirname "$0")/.." && pwd)
# shellcheck source=tests/skips.bash
. "$top/tests/skips.bash"
[ -n "$(command -v nvim)$(command -v emacs)" ] || skip_all 'the package neovim or emacs-nox'
work=$(mktemp -d)
nvim='' emacs=''
trap 'kill $nvim $emacs 2> /dev/null || true; rm -rf "$work"' EXIT
failed=0
# The most seconds that an editor gets. It stays in the group of processes of this script, so that who ends that ends the editor.
limit=1800

export TOP=$top EDITS=${1:-100} SEED=${2:-1} PROGRAM=${PROGRAM:-$top/affedit} TERM=xterm LC_ALL=C.UTF-8
# Nothing is read from the user's own folders, nor written there.
export HOME=$work/home
mkdir "$HOME"
unset DICPATH VIMINIT NVIM_LISTEN_ADDRESS XDG_CACHE_HOME XDG_CONFIG_HOME XDG_STATE_HOME

# Nothing is built here.
export AFFEDIT_NO_BUILD=1
[ "$PROGRAM" != "$top/affedit" ] || "$top/tests/program" > /dev/null
status=0
"$PROGRAM" check "$top/examples/sample.aff" "$top/examples/sample.dic" "$top/examples/sample.txt" > /dev/null || status=$?
if [ "$status" != 1 ]; then
    echo "there is no program to try the editors with: status $status" >&2
    exit 1
fi

# prepare NAME: makes a dictionary that the program reads of one of Debian's, and adds its path without `.aff` to DICTIONARIES.
prepare() {
    local what="the plugin in Neovim by the dictionary $1" stem=$work/dictionaries/$1
    if has_dictionary "$what" "$1" && has "$what" python3; then
        "$top/tools/prepare-dictionary" --lossy "$1" "$stem" > "$work/prepared" 2>&1 || {
            tail -n 5 "$work/prepared"
            failed=1
        }
        DICTIONARIES+=:$stem
    fi
}

# The two editors run at once.
if has 'the plugin in Neovim' nvim; then
    mkdir "$work/dictionaries"
    export DICTIONARIES=''
    for name in en_US de_DE_frami hu_HU; do
        prepare "$name"
    done
    has 'the addresses of Neovim beside those of affedit-check' python3 || true
    mkdir "$work/nvim"
    # shellcheck disable=SC2016
    WORK=$work/nvim timeout --foreground -k 10 "$limit" nvim --headless --clean -i NONE -c 'exe "luafile" fnameescape($TOP . "/tests/editors/nvim.lua")' -c 'cquit 3' \
        < /dev/null > "$work/nvim-report" 2> "$work/nvim-said" &
    nvim=$!
fi

# The mode is compiled, as its README.md has it. Emacs draws nothing without a terminal, so that it gets one.
if has 'the mode in Emacs' emacs script stty; then
    mkdir "$work/emacs" "$work/compiled"
    cp "$top"/editors/emacs/*.el "$work/compiled"
    status=0
    (cd "$work/compiled" && emacs -Q --batch -L . -f batch-byte-compile ./*.el) > "$work/emacs-said" 2>&1 || status=$?
    # Where Emacs compiles by itself, as it may, it shows each warning to the user.
    if [ "$status" != 0 ] || grep -q Warning "$work/emacs-said"; then
        echo "Emacs compiles the mode with warnings or faults: status $status"
        head -n 5 "$work/emacs-said"
        failed=1
    fi
    WORK=$work/emacs COMPILED=$work/compiled REPORT=$work/emacs-report timeout --foreground -k 10 "$limit" \
        script -qec "stty rows 30 cols 100; exec emacs -nw -Q -l '$top/tests/editors/emacs.el'" /dev/null < /dev/null > "$work/emacs-said" 2>&1 &
    emacs=$!
fi

if [ -n "$nvim" ]; then
    wait "$nvim" || {
        echo "Neovim: status $?"
        tail -n 5 "$work/nvim-said"
        failed=1
    }
    nvim=''
    cat "$work/nvim-report"
fi
if [ -n "$emacs" ]; then
    wait "$emacs" || {
        echo "Emacs: status $?"
        failed=1
    }
    emacs=''
    if [ -s "$work/emacs-report" ]; then
        cat "$work/emacs-report"
    else
        echo 'Emacs has reported nothing'
        failed=1
    fi
fi

# The editors ask for suggestions if they can.
[ -z "$nvim$emacs" ] || has 'suggestions in editors' hunspell || true

# What was started here has the folder in its words. It ends with its editor, but perhaps a moment later.
left() { grep -lsF -- "$work/" /proc/[0-9]*/cmdline || true; }
until=$((SECONDS + 120))
while [ -n "$(left)" ]; do
    if [ "$SECONDS" -ge "$until" ]; then
        echo "processes are left: $(left | tr '\n' ' ')"
        failed=1
        break
    fi
    sleep 0.1
done
exit "$failed"
