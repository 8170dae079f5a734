#!/usr/bin/env bash
# Times `check` and `hunspell -l` by dictionaries of Debian's packages on the same running text, LibreOffice's help without its markup,
# and prints a row of a table in Markdown for each. `hunspell -l` reads it in lines of at most 150 bytes, since it is slow on long ones;
# `check`, which takes 20,000 lines, reads these joined to lines of at most 1,000. Seconds are the processor's, the least of three runs;
# words a second are the words that `check` counts by the seconds for the text, less those of an empty one, the load. The memory is the
# most that a run on the text used, and a megabyte 1024 kB. Both read the same files, converted and mended as `bench/packages.bash`
# says. Packages are fetched and unpacked, not installed; hunspell is asked for. With a folder as its argument, packages are kept there.
set -euo pipefail
[ -n "$(command -v hunspell)" ] || { echo 'languages: hunspell is not installed' >&2; exit 1; }
top=$(cd "$(dirname "$0")/.." && pwd)
work=$(mktemp -d)
trap 'rm -rf "$work"' EXIT
store=$(mkdir -p "${1:-$work/packages}" && cd "${1:-$work/packages}" && pwd)
cd "$work"
export LC_ALL=C.UTF-8
# shellcheck source=bench/packages.bash
source "$top/bench/packages.bash"

# The least processor seconds and the most kB of three runs, which leave what is said in `out`.
measure() {
    rm -f cost
    for _ in 1 2 3; do
        /usr/bin/time -q -a -o cost -f '%U %S %M' "$@" > out || [ $? -eq 1 ]
    done
    awk '{ spent = $1 + $2; if (NR == 1 || spent < least) least = spent; if ($3 > most) most = $3 } END { print least, most }' cost
}

# cells TEXT COMMAND..: the cells of one peer: load, words a second, memory. The text stands last in its words.
cells() {
    local text=$1 load spent memory
    shift
    read -r load _ <<< "$(measure "$@" empty)"
    read -r spent memory <<< "$(measure "$@" "$text")"
    awk -v load="$load" -v spent="$spent" -v memory="$memory" -v count="$count" 'BEGIN { printf " %.2f s | %d | %.0f MB |", load, count / (spent - load) / 1000 + 0.5, memory / 1024 }'
}

: > empty
printf '0\n' > zero.dic
"$top/affedit" check /dev/null zero.dic /dev/null > /dev/null
program=$top/out/affedit
echo '| dictionary | text | words | load | thousand words a second | memory | hunspell: load | thousand words a second | memory |'
echo '|---|---|---|---|---|---|---|---|---|'
while read -r package name; do
    unpack "$package"
    prepare "$(find "$package" -name "$name.aff" -type f)" dictionary
    manual=$(text_package "$name")
    unpack "$manual"
    running_text "$manual" | LC_ALL=C tr -s ' \t' ' ' | LC_ALL=C fold -s -w 150 | iconv -c -f UTF-8 -t UTF-8 > lines
    LC_ALL=C tr -s ' \n' ' ' < lines | LC_ALL=C fold -b -s -w 1000 | iconv -c -f UTF-8 -t UTF-8 > text
    "$program" check dictionary.aff dictionary.dic text > out || [ $? -eq 1 ]
    count=$(awk 'END { print $3 }' out)
    echo "| \`$package $name\` $(version "$package") | $(stat -c %s text | awk '{ printf "%.1f MB", $1 / 1000000 }') | $count |$(cells text "$program" check dictionary.aff dictionary.dic)$(cells lines hunspell -d dictionary -i UTF-8 -l)"
done << 'PAIRS'
hunspell-en-us en_US
hunspell-en-gb en_GB
hunspell-fr-classical fr
hunspell-es es_ES
hunspell-it it_IT
hunspell-pt-br pt_BR
hunspell-ru ru_RU
hunspell-nl nl
hunspell-de-de de_DE
PAIRS
