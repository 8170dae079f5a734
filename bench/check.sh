#!/usr/bin/env bash
# Times `check` by a list of a hundred words on texts of 1 to 4 MB, in 15,000 lines of 10, 20 and 40 words, and the same words in lines
# that are as long as may be. With the word `large`, on texts of 63 MB too, in 20,000 lines of 450 words and in long ones; on 60 MB of
# words of 65,536 letters, of words of one letter, and of one known word, all in long lines; and on 60 MB that are refused, since they
# are one line, or have too many. Prints the processor seconds (the least of three runs, of one where the text is large), the most
# memory, how often the bytes of the text and of the output go into that, and the last line of the output.
set -euo pipefail
top=$(cd "$(dirname "$0")/.." && pwd)
work=$(mktemp -d)
trap 'rm -rf "$work"' EXIT

# A word of three syllables for a number, as babebi for 0: six letters.
words='function word(i) { return substr("bdfgklmnrt", i % 10 + 1, 1) "a" substr("bdfgklmnrt", int(i / 10) % 10 + 1, 1) "e" substr("bdfgklmnrt", int(i / 100) % 10 + 1, 1) "i" }'
printf 'SET UTF-8\n' > "$work/a.aff"
awk "$words"' BEGIN { print 100; for (i = 0; i < 100; i++) print word(i) }' > "$work/a.dic"

# text LINES WORDS: so many lines of so many words. Every tenth word is no word of the list.
text() {
    awk -v lines="$1" -v words="$2" "$words"' BEGIN { for (l = 0; l < lines; l++) { for (k = 0; k < words; k++) { i = (l * 7 + k * 13) % 100; if (k % 10 == 9) i += 100; printf "%s%s", word(i), k == words - 1 ? "\n" : " " } } }'
}
# Joins lines to such of 65,536 bytes at most, where each word has six letters. Each line ends with a space.
in_long_lines() { tr '\n' ' ' | fold -b -w 65534; }

# The launcher builds the program where it is missing; the program itself is timed.
"$top/affedit" check "$work/a.aff" "$work/a.dic" "$work/a.dic" > /dev/null || [ $? -eq 1 ]
program=$top/out/affedit
# measure NAME [STATUS]: the run ends with 0 or with that status, which is 1 where it is not given.
measure() {
    local name=$1 seconds memory bytes size
    size=$(stat -c %s "$work/text")
    rm -f "$work/said"
    for _ in $(seq $((size < 10000000 ? 3 : 1))); do
        /usr/bin/time -q -a -o "$work/said" -f '%U %S %M' "$program" check "$work/a.aff" "$work/a.dic" "$work/text" > "$work/out" || [ $? -eq "${2:-1}" ]
    done
    read -r seconds memory < <(awk '{ print $1 + $2, $3 }' "$work/said" | sort -n | head -n 1)
    bytes=$(cat "$work/text" "$work/out" | wc -c)
    printf "%-26s %9d bytes: %6.2f s, %7d kB, %4.1f times, %s\n" "$name" "$size" "$seconds" "$memory" \
        "$(awk -v memory="$memory" -v bytes="$bytes" 'BEGIN { print memory * 1024 / bytes }')" "$(tail -n 1 "$work/out")"
}

sizes='15000:10 15000:20 15000:40'
if [ "${1:-}" = large ]; then
    sizes="$sizes 20000:450"
fi
for size in $sizes; do
    text "${size%:*}" "${size#*:}" > "$work/text"
    measure "${size%:*} lines of ${size#*:} words"
    in_long_lines < "$work/text" > "$work/long"
    mv "$work/long" "$work/text"
    measure 'the same in long lines'
done
if [ "${1:-}" != large ]; then
    exit
fi
head -c 60000000 /dev/zero | tr '\0' a | fold -b -w 65536 > "$work/text"
measure 'words of 65,536 letters'
repeated() {
    { yes "$1" || true; } | head -c 60000000
}
repeated a | tr '\n' ' ' | fold -b -w 65536 > "$work/text"
measure 'words of one letter'
repeated babebi | in_long_lines > "$work/text"
measure 'one known word'
repeated babebi | tr '\n' ' ' > "$work/text"
measure 'one line, refused' 8
repeated '' > "$work/text"
measure 'empty lines, refused' 8
