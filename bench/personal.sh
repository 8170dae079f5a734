#!/usr/bin/env bash
# Measures what a personal word costs: the processor time of `edit` with 20 lines `own`, each of a word that the dictionary lacks, less that
# with none, by 20; the load alone; and the time of a `check` of one word beside a list of 10,000 words, less that with no list. Each is the least
# of three runs, by dictionaries of Debian's packages. The memory is the most that the run with 20 lines used. Packages are fetched and unpacked,
# not installed.
set -euo pipefail
top=$(cd "$(dirname "$0")/.." && pwd)
work=$(mktemp -d)
trap 'rm -rf "$work"' EXIT
cd "$work"
export LC_ALL=C.UTF-8
# shellcheck source=bench/packages.bash
. "$top/bench/packages.bash"

# The launcher builds the program where it is missing; the program itself is timed.
printf '0\n' > zero.dic
"$top/affedit" check /dev/null zero.dic /dev/null > /dev/null
program=$top/out/affedit

# The least processor milliseconds and the least of the most kB of three runs of a command, with this file on standard input.
measure() {
    local input=$1 TIMEFORMAT='%U %S'
    shift
    rm -f seconds memory
    for _ in 1 2 3; do
        { time /usr/bin/time -q -a -o memory -f '%M' "$@" < "$input" > /dev/null || [ $? -eq 1 ]; } 2>> seconds
    done
    echo "$(awk '{ print ($1 + $2) * 1000 }' seconds | sort -n | head -n 1) $(sort -n memory | head -n 1)"
}

echo quit > none
{ for word in {1..20}; do echo "own qqx$word"; done; echo quit; } > twenty
for word in {1..10000}; do echo "qqx$word"; done > list
echo hello > text
echo '| dictionary | entries | load | one `own` | memory | a list of 10,000 words |'
echo '|---|---|---|---|---|---|'
while read -r package name; do
    unpack "$package"
    prepare "$package/usr/share/hunspell/$name.aff" "$name"
    read -r load _ <<< "$(measure none "$program" edit "$name.aff" "$name.dic")"
    read -r spent memory <<< "$(measure twenty "$program" edit "$name.aff" "$name.dic")"
    read -r plain _ <<< "$(measure none "$program" check "$name.aff" "$name.dic" text)"
    read -r listed _ <<< "$(measure none "$program" check "$name.aff" "$name.dic" text --own list)"
    awk -v name="$name" -v load="$load" -v spent="$spent" -v memory="$memory" -v more="$((${listed%.*} - ${plain%.*}))" -v entries="$(wc -l < "$name.dic")" \
        'BEGIN { printf "| %s | %d | %.0f ms | %.0f ms | %.0f MB | %.0f ms |\n", name, entries, load, (spent - load) / 20, memory / 1024, more }'
done << PAIRS
hunspell-en-us en_US
hunspell-fr-classical fr
hunspell-de-de-frami de_DE_frami
hunspell-pt-br pt_BR
PAIRS
