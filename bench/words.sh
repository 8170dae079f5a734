#!/usr/bin/env bash
# Measures what a word costs that was not asked before: bench/words.sh [--check] [--quick] [--fetch FOLDER] [WORDS]. `check` and nuspell's library
# judge the same words, by each of nine of Debian's dictionaries that is installed. The words are the first different runs of letters of installed
# texts: the Debian Reference, manual pages and LibreOffice's help. Each occurs once, one a line. WORDS is the most words of a dictionary, 20,000
# without it, as a text has no more lines. Prints a row of a table in Markdown for each dictionary. It has the number of words, and the instructions
# that callgrind counts for one. Then it has the processor seconds for all words, without valgrind, and the words a second. Seconds are the middle of
# seven runs in turn. What an empty text costs is subtracted. What `check` prints goes to a file or to /dev/null.
# With `--check` the status is 1 if `check` takes more instructions for a word than the table of this script permits. Standard error names each such
# dictionary. With `--quick` the first dictionary that is there is measured, on 2,000 words, with one run. With `--fetch` all dictionaries, and a text
# for each, are from packages. They are fetched into FOLDER and unpacked, not installed. Needs valgrind and Python 3; for nuspell it needs
# libnuspell-dev and g++.
set -euo pipefail
top=$(cd "$(dirname "$0")/.." && pwd)
# shellcheck source=tests/skips.bash
. "$top/tests/skips.bash"

# A line for each dictionary: its package, its name, a package with a text in its language, and the most instructions that a word may take.
table='hunspell-en-us en_US debian-reference-en 2300
hunspell-es es_ES manpages-es 2800
hunspell-nl nl manpages-nl 8500
hunspell-de-de-frami de_DE_frami manpages-de 7500
hunspell-sv sv_SE manpages-sv 15000
hunspell-da da_DK manpages-da 22000
hunspell-fr-classical fr manpages-fr 5000
hunspell-ru ru_RU manpages-ru 3200
hunspell-pl pl_PL manpages-pl 3500'

usage() {
    echo 'usage: bench/words.sh [--check] [--quick] [--fetch FOLDER] [WORDS]' >&2
    exit 2
}

is_checked='' is_quick='' fetched='' limit='' rounds=7
while [ $# != 0 ]; do
    case $1 in
        --check) is_checked=1 ;;
        --quick) is_quick=1 rounds=1 ;;
        --fetch)
            [ $# -ge 2 ] || usage
            fetched=$2
            shift
            ;;
        [1-9]*)
            [[ $1 =~ ^[1-9][0-9]{0,4}$ ]] || usage
            [ "$1" -le 20000 ] || usage
            limit=$1
            ;;
        *) usage ;;
    esac
    shift
done
[ -n "$limit" ] || limit=$([ -n "$is_quick" ] && echo 2000 || echo 20000)
needs valgrind python3

work=$(mktemp -d)
trap 'rm -rf "$work"' EXIT
[ -z "$fetched" ] || store=$(mkdir -p "$fetched" && cd "$fetched" && pwd)
cd "$work"
export LC_ALL=C.UTF-8
# shellcheck source=bench/packages.bash
. "$top/bench/packages.bash"
# shellcheck source=bench/peers.bash
. "$top/bench/peers.bash"

# The launcher builds the program where it is missing; the program itself is measured.
: > empty
printf '0\n' > zero.dic
"$top/affedit" check /dev/null zero.dic /dev/null > /dev/null
program=$top/out/affedit

nuspell=''
if has "nuspell's library" c++ pkg-config; then
    if pkg-config --exists nuspell; then
        build_nuspell
        nuspell=./nuspell
    else
        skip "nuspell's library" 'the package libnuspell-dev'
    fi
fi

# installed_text NAME: the running text that is installed in the language of a dictionary.
installed_text() {
    local language=${1%%_*} place manuals=(/usr/share/man/"${1%%_*}")
    [ "$language" != en ] || manuals=(/usr/share/man/man[1-8])
    for place in "/usr/share/debian-reference/debian-reference.$language.txt.gz" "${manuals[@]}" \
        "/usr/share/libreoffice/help/$language" "/usr/share/libreoffice/help/${1/en_US/en-US}"; do
        [ ! -e "$place" ] || running_text "$place"
    done
}

# The first different runs of letters of a text, one a line. No more of the text is read than that takes.
different() {
    { grep -aoP '\p{L}+' || true; } 2> /dev/null | awk -v limit="$limit" '!seen[$0]++ { print; if (++count == limit) exit }'
}

# a_word COMMAND..: the instructions of a word, by the words of the file `words`.
a_word() {
    local load spent
    load=$(instructions "$@" empty)
    spent=$(instructions "$@" words)
    if [ -z "$load" ] || [ -z "$spent" ]; then
        echo "words.sh: valgrind does not count the instructions of $1" >&2
        return 1
    fi
    echo $(((spent - load + count / 2) / count))
}

# Reads commands, one a line, and prints for each the processor seconds for the words, less those for none, in the middle of the rounds.
cat > in_turn.py << 'PYTHON'
import resource
import statistics
import subprocess
import sys


def seconds(command, text):
    before = resource.getrusage(resource.RUSAGE_CHILDREN)
    with open('said', 'wb') as said:
        if subprocess.run([*command, text], stdout=said, check=False).returncode not in (0, 1):
            sys.exit(f'words.sh: {command[0]} has failed')
    after = resource.getrusage(resource.RUSAGE_CHILDREN)
    return after.ru_utime + after.ru_stime - before.ru_utime - before.ru_stime


commands = [line.split() for line in sys.stdin]
spent = [[] for _ in commands]
for _ in range(int(sys.argv[1])):
    for command, times in zip(commands, spent):
        load = seconds(command, 'empty')
        times.append(seconds(command, 'words') - load)
print(*(f'{max(statistics.median(times), 0.000001):.6f}' for times in spent))
PYTHON

# row NAME: the row of a dictionary, by the files of `prepare` and the words of the file `words`; its instructions go to `ours`.
row() {
    local theirs='' mine other='' said
    { "$program" check dictionary.aff dictionary.dic words || [ $? -eq 1 ]; } > said
    said=$(tail -n 1 said)
    [ "${said##* }" = "$count" ] || { echo "words.sh: $1: of $count words check says $said" >&2; return 1; }
    ours=$(a_word "$program" check dictionary.aff dictionary.dic)
    [ -z "$nuspell" ] || theirs=$(a_word "$nuspell" dictionary.aff dictionary.dic)
    read -r mine other < <({
        echo "$program check dictionary.aff dictionary.dic"
        [ -z "$nuspell" ] || echo "$nuspell dictionary.aff dictionary.dic"
    } | python3 in_turn.py "$rounds")
    awk -v name="$1" -v count="$count" -v ours="$ours" -v theirs="$theirs" -v mine="$mine" -v other="$other" 'BEGIN {
        printf "| %s | %d | %d |", name, count, ours
        if (theirs == "") printf " | |"; else printf " %d | %.2f |", theirs, theirs / ours
        printf " %.3f s | %.0f |", mine, count / mine / 1000
        if (other == "") print " | | |"; else printf " %.3f s | %.0f | %.2f |\n", other, count / other / 1000, other / mine }'
}

echo '| dictionary | words | instructions a word | nuspell | times as many | time | thousand words a second | nuspell: time | thousand words a second | times as fast |'
echo '|---|---|---|---|---|---|---|---|---|---|'
measured=0 exceeded=''
while read -r package name manual bound; do
    if [ -n "$fetched" ]; then
        unpack "$package"
        unpack "$manual"
        folder=$package/usr/share/hunspell
        running_text "$manual" 2> /dev/null | different > words || true
    else
        is_installed "$name" || { [ -n "$is_quick" ] || skip "$name" "the package $package"; continue; }
        folder=/usr/share/hunspell
        installed_text "$name" 2> /dev/null | different > words || true
    fi
    count=$(wc -l < words)
    [ "$count" != 0 ] || { [ -n "$is_quick" ] || skip "$name" "a text, as of the package $manual"; continue; }
    prepare "$folder/$name.aff" dictionary || { cat dictionary.changes >&2; exit 1; }
    row "$name"
    measured=$((measured + 1))
    [ "$ours" -le "$bound" ] || exceeded+="words.sh: $name: $ours instructions a word, $bound are permitted"$'\n'
    [ -z "$is_quick" ] || break
done <<< "$table"
[ "$measured" != 0 ] || skip_all 'a dictionary and a text in its language, as of the packages hunspell-en-us and debian-reference-en'
if [ -n "$is_checked" ] && [ -n "$exceeded" ]; then
    printf '%s' "$exceeded" >&2
    exit 1
fi
