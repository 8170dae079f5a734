#!/usr/bin/env bash
# The mode of editors/emacs in batch mode: what it marks by its scope, by the dictionary of a buffer and by personal lists. Then the marks after
# random edits beside those of `check`, by those of Debian's dictionaries en_US, de_DE_frami and hu_HU that are there. Needs Emacs, and is skipped
# without. Words: EDITS, how many edits, 200 without it; SEED, what they are drawn from. The program is ./affedit, or that of PROGRAM. Prints what
# differs; the status is 0 where nothing does.
set -euo pipefail
top=$(cd "$(dirname "$0")/.." && pwd)
# shellcheck source=tests/skips.bash
. "$top/tests/skips.bash"
needs emacs
# Nothing is built here.
export AFFEDIT_NO_BUILD=1 TOP=$top PROGRAM=${PROGRAM:-$top/affedit}
[ "$PROGRAM" != "$top/affedit" ] || "$top/tests/program" > /dev/null
work=$(mktemp -d)
trap 'rm -rf "$work"' EXIT
mkdir "$work/home" "$work/compiled"
export HOME=$work/home WORK=$work COMPILED=$work/compiled LC_ALL=C.UTF-8
unset DICPATH
cp "$top"/editors/emacs/*.el "$COMPILED"
(cd "$COMPILED" && emacs -Q --batch -L . -f batch-byte-compile ./*.el) > "$work/said" 2>&1 || { cat "$work/said"; exit 1; }
has 'the addresses of Emacs beside those of affedit-check' python3 || true

# The real dictionaries, those that are there, by their names.
DICTIONARIES='' EDITS=${1:-200} SEED=${2:-1}
export DICTIONARIES EDITS SEED
mkdir -p "$work/data/affedit"
for name in en_US de_DE_frami hu_HU; do
    what="random edits in Emacs by $name"
    if has_dictionary "$what" "$name" && has "$what" python3; then
        "$top/tools/prepare-dictionary" --lossy "/usr/share/hunspell/$name".{aff,dic} "$work/data/affedit/$name" > "$work/said" 2>&1 || {
            cat "$work/said"
            exit 1
        }
        DICTIONARIES+=" $name"
    fi
done
emacs -Q --batch -l "$top/tests/editors/emacs_mode.el"
