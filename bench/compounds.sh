#!/usr/bin/env bash
# Times `check` on compounds. By a dictionary of 20,000 entries of six letters, all with COMPOUNDFLAG: 1,000 words of three parts, and
# 1,000 of 100 characters that are none, since their first or their last four letters are no part's. By a dictionary of
# `a` and `aa`: 1,000 words of 30, 50 and 100 characters that are none, which could be cut in the most ways. By 20,000 entries and
# 65,000 compound rules: none has a flag of an entry; and by rules that all have one. By 100 rows of CHECKCOMPOUNDPATTERN with a
# replacement: 1,000 words of 100 characters of which none has a replacement, where all rows fit all parts; 1,000 words of syllables
# in which one of four replacements ends most pieces; and one word of 100 characters in which every row may have written each piece,
# by `a` and `aa`, and by 22 entries of `a` alone.
# With CHECKSHARPS: 1,000 words in capitals of which each covers the most spellings, 66, and 1,000 of as many letters that cover four.
# Prints seconds and the most memory that was used. Ends with status 1 if a number of marks is another one than is known here.
set -euo pipefail
top=$(cd "$(dirname "$0")/.." && pwd)
work=$(mktemp -d)
trap 'rm -rf "$work"' EXIT
cd "$work"

stems='function syllable(j) { return substr("bdfgklmnrt", int(j / 5) + 1, 1) substr("aeiou", j % 5 + 1, 1) } function stem(i) { return syllable(i % 50) syllable(int(i / 50) % 50) syllable(int(i / 2500) % 50) }'
printf 'SET UTF-8\nCOMPOUNDFLAG X\n' > flags.aff
awk "$stems"' BEGIN { print 20000; for (i = 0; i < 20000; i++) print stem(i) "/X" }' > flags.dic
awk "$stems"' BEGIN { for (k = 0; k < 1000; k++) printf "%s%s%s%s", stem(k * 7919 % 20000), stem(k * 104729 % 20000), stem(k * 1299709 % 20000), k % 10 == 9 ? "\n" : " " }' > parts.text
awk "$stems"' function many(k, made, j) { for (j = 0; j < 16; j++) made = made stem((k * 7919 + j * 1237) % 20000); return made } BEGIN { for (k = 0; k < 1000; k++) print "vvvv" many(k) }' > front.text
awk "$stems"' function many(k, made, j) { for (j = 0; j < 16; j++) made = made stem((k * 7919 + j * 1237) % 20000); return made } BEGIN { for (k = 0; k < 1000; k++) print many(k) "vvvv" }' > end.text
printf 'SET UTF-8\nCOMPOUNDFLAG X\nCOMPOUNDMIN 1\n' > short.aff
printf '2\na/X\naa/X\n' > short.dic
for length in 30 50 100; do
    awk -v length_of=$length 'BEGIN { word = "b"; while (length(word) < length_of) word = word "a"; for (k = 0; k < 1000; k++) print word }' > "short-$length.text"
done
awk 'BEGIN { print "FLAG num"; print "COMPOUNDRULE 65000"; for (i = 0; i < 65000; i++) printf "COMPOUNDRULE (%d)(%d)*(%d)\n", i % 60000 + 2, i % 50000 + 3, i % 40000 + 4 }' > dead.aff
awk 'BEGIN { print "FLAG num"; print "COMPOUNDRULE 65000"; for (i = 0; i < 65000; i++) printf "COMPOUNDRULE (1)(%d)*(%d)\n", i % 50000 + 3, i % 40000 + 4 }' > live.aff
printf 'FLAG num\n' > none.aff
awk "$stems"' BEGIN { print 20000; for (i = 0; i < 20000; i++) print stem(i) "/1" }' > rules.dic
{ cat flags.aff; printf 'CHECKSHARPS\n'; } > sharps.aff
awk 'BEGIN { for (k = 0; k < 1000; k++) { print "ASSASSASSASSASSA" > "pairs.text"; print "ATTATTATTATTATTA" > "no-pairs.text" } }'
# Rows of CHECKCOMPOUNDPATTERN behind the lines of `short.aff`, 100 each.
rows() { { cat short.aff; echo CHECKCOMPOUNDPATTERN 100; awk "BEGIN { $1 }" | sed 's/^/CHECKCOMPOUNDPATTERN /'; } > "$2"; }
rows 'for (i = 0; i < 100; i++) printf "a a %c%c\n", 99 + int(i / 10), 99 + i % 10' apart.aff
rows 'for (i = 0; i < 100; i++) printf "%s %s %s\n", substr("bcdfg", i % 5 + 1, 1), substr("aeiou", int(i / 5) % 5 + 1, 1), substr("wxyz", int(i / 25) + 1, 1)' syllables.aff
rows 'made = ""; for (i = 0; i < 100; i++) print "a a", (made = made "a")' everywhere.aff
awk 'BEGIN { print 10000; for (i = 0; i < 10000; i++) print substr("bcdfgklmnp", i % 10 + 1, 1) substr("aeiouwxyzr", int(i / 10) % 10 + 1, 1) substr("bcdfgklmnp", int(i / 100) % 10 + 1, 1) substr("aeiouwxyzr", int(i / 1000) + 1, 1) "/X" }' > syllables.dic
awk 'BEGIN { srand(5); for (k = 0; k < 1000; k++) { word = "vvvv"; while (length(word) < 100) word = word substr("bcdfg", int(rand() * 5) + 1, 1) substr("aeiou", int(rand() * 5) + 1, 1) substr("bcdfgx", int(rand() * 6) + 1, 1) substr("aeioxyzw", int(rand() * 8) + 1, 1); print word } }' > syllables.text
head -n 1 short-100.text > one.text
awk 'BEGIN { print 22; made = ""; for (i = 0; i < 22; i++) print (made = made "a") "/X" }' > many.dic

program=$top/out/affedit
measure() {
    local name=$1 marks=$2 said
    shift 2
    said=$({ /usr/bin/time -f '%e s, %M kB' "$program" check "$@" > out || [ $? -eq 1 ]; } 2>&1 | tail -n 1)
    printf '%-44s %s, %s\n' "$name" "$said" "$(tail -n 1 out)"
    [ "$(tail -n 1 out)" = "$marks" ]
}

# The launcher builds the program where it is missing; the program itself is timed.
"$top/affedit" make 1 1 > /dev/null || [ $? -eq 1 ]
measure '1,000 words of three parts' '0 of 1000' flags.aff flags.dic parts.text
measure '1,000 words of 100, none by their front' '1000 of 1000' flags.aff flags.dic front.text
measure '1,000 words of 100, none by their end' '1000 of 1000' flags.aff flags.dic end.text
for length in 30 50 100; do
    measure "1,000 words of $length that may be cut anywhere" '1000 of 1000' short.aff short.dic "short-$length.text"
done
measure '1,000 words of three parts, no rule' '1000 of 1000' none.aff rules.dic parts.text
measure 'the same, 65,000 rules of no entry' '1000 of 1000' dead.aff rules.dic parts.text
measure 'the same, 65,000 rules of each entry' '1000 of 1000' live.aff rules.dic parts.text
measure '1,000 words of 100, 100 replacements of none' '1000 of 1000' apart.aff short.dic short-100.text
measure '1,000 words of 100 of syllables, no row' '1000 of 1000' short.aff syllables.dic syllables.text
measure 'the same, 100 replacements in them' '1000 of 1000' syllables.aff syllables.dic syllables.text
measure 'a word of 100, 100 replacements everywhere' '1 of 1' everywhere.aff short.dic one.text
measure 'the same by 22 entries' '1 of 1' everywhere.aff many.dic one.text
measure '1,000 words in capitals of four spellings' '1000 of 1000' sharps.aff flags.dic no-pairs.text
measure 'the same of 66' '1000 of 1000' sharps.aff flags.dic pairs.text
