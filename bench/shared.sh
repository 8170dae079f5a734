#!/usr/bin/env bash
# Times `check` by some workers on 5 MB of running text in English and in German, LibreOffice's help without its markup as often as it
# takes, in lines of at most 1,000 bytes. Prints a row of a table in Markdown for each number of workers: the seconds that pass, on the text
# and on an empty one, the load, in the middle of 15 rounds; how often the time for the text goes into that of a run without workers right
# before it, in the middle and of the rounds at a quarter and at three quarters; and the memory. Only runs that follow each other are
# compared, since a processor may be faster in one second than in the next. Each run has to print what the first did. It means something on a
# machine with four processors or more that are idle. Packages are fetched and unpacked, not installed. With a folder as its argument,
# packages are kept there. ROUNDS is another number of rounds.
set -euo pipefail
top=$(cd "$(dirname "$0")/.." && pwd)
work=$(mktemp -d)
trap 'rm -rf "$work"' EXIT
store=$(mkdir -p "${1:-$work/packages}" && cd "${1:-$work/packages}" && pwd)
cd "$work"
export LC_ALL=C.UTF-8
# shellcheck source=bench/packages.bash
source "$top/bench/packages.bash"

rounds=${ROUNDS:-15}

# timed TEXT OPTION..: the seconds of a run, which leaves what is said in `out`.
timed() {
    local text=$1 begin
    shift
    begin=$EPOCHREALTIME
    "$program" check dictionary.aff dictionary.dic "$text" "$@" > out || [ $? -eq 1 ]
    awk -v begin="$begin" -v end="$EPOCHREALTIME" 'BEGIN { printf "%.6f\n", end - begin }'
}

# row COSTS WORKERS: the load and the time for the text in the middle of the rounds; and how many times as fast as without workers right before,
# at a quarter, in the middle and at three quarters.
row() {
    python3 - "$@" << 'PYTHON'
import statistics
import sys

lines = [line.split() for line in open(sys.argv[1], encoding='ascii')]
mine = [[float(cost) for cost in line[1:]] for line in lines if line[0] == sys.argv[2]]
times = sorted(alone / spent for load, alone, spent in mine)
middle = [statistics.median(line[place] for line in mine) for place in (0, 2)]
print(*middle, times[len(times) // 4], statistics.median(times), times[3 * len(times) // 4])
PYTHON
}

: > empty
printf '0\n' > zero.dic
"$top/affedit" check /dev/null zero.dic /dev/null > /dev/null
program=$top/out/affedit
echo '| dictionary | workers | text | load | times as fast | memory |'
echo '|---|---|---|---|---|---|'
while read -r package name; do
    unpack "$package"
    prepare "$(find "$package" -name "$name.aff" -type f)" dictionary
    manual=$(text_package "$name")
    unpack "$manual"
    running_text "$manual" | LC_ALL=C tr -s ' \t\n' ' ' | LC_ALL=C fold -b -s -w 1000 | iconv -c -f UTF-8 -t UTF-8 > once
    # The text itself ends in the midst of a line.
    : > text
    while [ "$(stat -c %s text)" -lt 5000000 ]; do { cat once; echo; } >> text; done
    head -c 5000000 text | iconv -c -f UTF-8 -t UTF-8 > whole
    mv whole text
    rm -f costs
    for ((round = 0; round < rounds; round++)); do
        for workers in none 1 2 4; do
            options=(--workers "$workers")
            [ "$workers" != none ] || options=()
            load=$(timed empty "${options[@]}")
            alone=$(timed text)
            [ -e wanted ] || cp out wanted
            cmp out wanted
            spent=$(timed text "${options[@]}")
            cmp out wanted
            echo "$workers $load $alone $spent" >> costs
        done
    done
    rm -f wanted
    for workers in none 1 2 4; do
        options=(--workers "$workers")
        [ "$workers" != none ] || options=()
        /usr/bin/time -q -o memory -f %M "$program" check dictionary.aff dictionary.dic text "${options[@]}" > /dev/null || [ $? -eq 1 ]
        row costs "$workers" | awk -v name="$package $name" -v workers="$workers" -v memory="$(cat memory)" \
            '{ printf "| `%s` | %s | %.3f s | %.3f s | %.2f (%.2f to %.2f) | %.0f MB |\n", name, workers, $2, $1, $4, $3, $5, memory / 1024 }'
    done
    rm -f text
done << 'PAIRS'
hunspell-en-us en_US
hunspell-de-de de_DE
PAIRS
