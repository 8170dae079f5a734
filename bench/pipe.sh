#!/usr/bin/env bash
# Times lines of words over a pipe: `pipe` beside `hunspell -a`, by Debian's American English dictionary, on 20,000 lines of LibreOffice's help in which
# `check` marks no word: hunspell proposes words for each that it does not know, and that would be most of its time. Each line has `^` in front.
# Printed is a row for each program: thousands of words a second of all time that passes, without the load, with all answers and with terse ones; and
# how many words are answered `#` or `&`. The words are those that `check` counts. The least of three runs counts. Packages are fetched and unpacked,
# not installed; the command hunspell is left out where it is not there.
set -euo pipefail
top=$(cd "$(dirname "$0")/.." && pwd)
work=$(mktemp -d)
trap 'rm -rf "$work"' EXIT
cd "$work"
# shellcheck source=bench/packages.bash
. "$top/bench/packages.bash"
export LC_ALL=C.UTF-8 AFFEDIT_QUIET=1

unpack hunspell-en-us
unpack libreoffice-help-en-us
prepare hunspell-en-us/usr/share/hunspell/en_US.aff en
# Any run builds what is missing; the program itself is timed.
"$top/affedit" make 1 1 > /dev/null || true
program=$top/out/affedit
running_text libreoffice-help-en-us > running
# hunspell takes a variation selector that stands alone for a word.
iconv -c -f UTF-8 -t UTF-8 running | sed 's/\xef\xb8\x8e//g; s/^[[:space:]]*//; /[[:alpha:]]/!d' > all
# Each 20,000 lines are a text, of which the lines without a mark are kept.
split -l 20000 all part.
: > text
for part in part.*; do
    { "$program" check en.aff en.dic "$part" || true; } | awk 'NF == 4 { print $1 }' > marked
    awk 'NR == FNR { marked[$1] = 1; next } !(FNR in marked)' marked "$part" >> text
done
head -n 20000 text > whole
words=$("$program" check en.aff en.dic whole | tail -n 1 | cut -d ' ' -f 3)
sed 's/^/^/' whole > lines
{ echo '!'; cat lines; } > terse

# seconds INPUT COMMAND..: the least time that passes of three runs, which leave their answers in `answers`.
seconds() {
    local TIMEFORMAT=%R input=$1
    shift
    for _ in 1 2 3; do
        { time "$@" < "$input" > answers; } 2>&1
    done | sort -n | head -n 1
}

# row NAME COMMAND..
row() {
    local name=$1 load all terse
    shift
    load=$(seconds /dev/null "$@")
    terse=$(seconds terse "$@")
    all=$(seconds lines "$@")
    awk -v name="$name" -v words="$words" -v load="$load" -v all="$all" -v terse="$terse" -v unknown="$(grep -c '^[#&]' answers || true)" 'BEGIN {
        printf "| %s | %.2f s | %.0f | %.0f | %d |\n", name, load, words / (all - load) / 1000, words / (terse - load) / 1000, unknown }'
}

echo "$words words in $(wc -l < lines) lines, version $(version hunspell-en-us) of the dictionary"
echo '| program | load | thousands of words a second | with terse answers | words not known |'
echo '|---|---|---|---|---|'
row 'affedit pipe' "$program" pipe en.aff en.dic
if [ -n "$(command -v hunspell)" ]; then
    row 'hunspell -a' hunspell -a -i UTF-8 -d "$work/en"
fi
