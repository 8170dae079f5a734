#!/usr/bin/env bash
# Lists all forms of dictionaries of Debian's packages, English, Dutch, Spanish, French and Italian, by `forms` and by `unmunch` of
# hunspell-tools. Prints a row of a table in Markdown for each dictionary: how many forms `forms` lists, its processor seconds and the
# most memory; the same of `unmunch`, whose forms are counted once each; and how many forms each lists alone.
# Below the table it says how many of the forms that `forms` lists `check` marks, with the first three of them; there should be none.
# Of those that `unmunch` lists alone it says how many `check` marks too, and how many it accepts by other means than one derivation, as
# a number, a compound or in pieces, with a sample of eight of each. Both counts are of forms that are one word of letters and
# apostrophes; others, as one with a space or a dot, are passed over.
# Packages are fetched and unpacked, not installed; `unmunch` is of hunspell-tools. With a folder as its argument, packages are kept
# there. AFFEDIT names another program to run in place of the one built here.
set -euo pipefail
top=$(cd "$(dirname "$0")/.." && pwd)
work=$(mktemp -d)
trap 'rm -rf "$work"' EXIT
store=$(mkdir -p "${1:-$work/packages}" && cd "${1:-$work/packages}" && pwd)
cd "$work"
export LC_ALL=C.UTF-8
# shellcheck source=bench/packages.bash
source "$top/bench/packages.bash"

printf '0\n' > zero.dic
"$top/affedit" check /dev/null zero.dic /dev/null > /dev/null
program=${AFFEDIT:-$top/out/affedit}

# cost COMMAND..: its processor seconds and kB, while what it says goes to `said`.
cost() { /usr/bin/time -q -o spent -f '%U %S %M' "$@" > said || true; awk '{ printf "%.2f %.0f", $1 + $2, $3 / 1024 }' spent; }

# The words of `check` in lines of at most 60,000 bytes, which are marked.
marked() {
    LC_ALL=C fold -b -s -w 60000 <(tr '\n' ' ' < "$1") > text
    { "$program" check dictionary.aff dictionary.dic text || [ $? -eq 1 ]; } > checked
    sed '$d' checked | cut -d ' ' -f 4- | LC_ALL=C sort -u
}

echo '| dictionary | forms | time | memory | `unmunch`: forms | time | memory | in both | `forms` alone | `unmunch` alone |'
echo '|---|---|---|---|---|---|---|---|---|---|'
while read -r package name; do
    unpack "$package"
    prepare "$(find "$package" -name "$name.aff" -type f)" dictionary
    read -r seconds memory <<< "$(cost "$program" forms dictionary.aff dictionary.dic)"
    if grep -q '^limit ' said; then
        echo "| \`$name\` | \`$(cat said)\` | $seconds s | $memory MB | $(unmunch dictionary.dic dictionary.aff 2> /dev/null | LC_ALL=C sort -u | wc -l) | | | | | |"
        continue
    fi
    sed '$d' said | LC_ALL=C sort > ours
    read -r other more <<< "$(cost unmunch dictionary.dic dictionary.aff 2> /dev/null)"
    LC_ALL=C sort -u said > theirs
    LC_ALL=C comm -23 ours theirs > first
    LC_ALL=C comm -13 ours theirs > second
    echo "| \`$name\` | $(wc -l < ours) | $seconds s | $memory MB | $(wc -l < theirs) | $other s | $more MB | $(LC_ALL=C comm -12 ours theirs | wc -l) | $(wc -l < first) | $(wc -l < second) |"
    # A form with a space or a dot in it would be cut into several words of the text.
    grep -xE "[[:alpha:]]+(['’][[:alpha:]]+)*" ours > whole || true
    marked whole > wrong
    echo "$name: of $(wc -l < whole) forms that are one word in a text \`check\` marks $(wc -l < wrong)" >> kinds
    head -n 3 wrong >> kinds
    grep -xE "[[:alpha:]]+(['’][[:alpha:]]+)*" second > whole || true
    marked whole > wrong
    LC_ALL=C comm -23 <(LC_ALL=C sort -u whole) wrong > inside
    echo "$name: of $(wc -l < whole) such forms of \`unmunch\` alone $(wc -l < wrong) are marked:$(shuf --random-source=ours -n 8 wrong | tr '\n' ' ' | sed 's/^/ /'); $(wc -l < inside) are not:$(shuf --random-source=ours -n 8 inside | tr '\n' ' ' | sed 's/^/ /')" >> kinds
done << 'PAIRS'
hunspell-en-us en_US
hunspell-en-gb en_GB
hunspell-nl nl
hunspell-es es_ES
hunspell-fr-classical fr
hunspell-it it_IT
PAIRS
echo
cat kinds
