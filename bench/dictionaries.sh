#!/usr/bin/env bash
# Times `check` on large dictionaries: an .aff file of 16 MB, one of 100,000 rules, a .dic file of 1,000,000 entries, and a
# text of 1,000 words by 300 rules and 50,000 entries; and on hostile ones, with a text of 1,000 words: 100,000 rules that add
# one text under 100,000 conditions, or strip 100,000 texts (by 100 words), 1,000 entries of one word, and 1,000,000 entries that
# begin alike; and tables of 65,000 conversions or break points: all different, all equal, alike in their first 200 characters, or
# all of which match; with words of 100 characters, and with 15 that are as long as a line may be, some 65,500 characters each.
# Prints seconds and the most memory that was used.
set -euo pipefail
top=$(cd "$(dirname "$0")/.." && pwd)
work=$(mktemp -d)
trap 'rm -rf "$work"' EXIT
cd "$work"

# A word of five syllables for a number, another one for each below 6,250,000.
words='function word(i) { return substr("bdfgklmnrt", i % 10 + 1, 1) "a" substr("bdfgklmnrt", int(i / 10) % 10 + 1, 1) "e" substr("bdfgklmnrt", int(i / 100) % 10 + 1, 1) "i" substr("bdfgklmnrt", int(i / 1000) % 10 + 1, 1) "o" substr("bdfgklmnrtpsvzj", int(i / 10000) % 15 + 1, 1) substr("aeiou", int(i / 150000) % 5 + 1, 1) substr("bdfgklmnrt", int(i / 750000) % 10 + 1, 1) }'
: > empty
echo 0 > zero.dic
awk 'BEGIN { print "SET UTF-8"; while (size < 16700000) { line = "FORBIDWARN of the words that are rare"; print line; size += length(line) + 1 } }' > lines.aff
awk 'BEGIN { while (size < 16700000) { line = "FORBIDWARN"; print line; size += length(line) + 1 } }' > short.aff
awk "$words"' BEGIN { print "FLAG num"; for (c = 1; c <= 1000; c++) { print "SFX", c, "Y", 100; for (r = 0; r < 100; r++) print "SFX", c, "0", substr(word(c * 100 + r), 1, 6) "/" c, "[^aeiou]" } }' > rules.aff
awk "$words"' BEGIN { print 1000000; for (i = 0; i < 1000000; i++) print word(i) "/AB" }' > million.dic
awk "$words"' BEGIN { print "SET UTF-8"; for (c = 0; c < 26; c++) { f = substr("ABCDEFGHIJKLMNOPQRSTUVWXYZ", c + 1, 1); print "SFX", f, "Y", 11; for (r = 0; r < 11; r++) print "SFX", f, "0", substr(word(c * 11 + r), 1, 2 + r % 3) "/" f, "." } print "PFX a Y 14"; for (r = 0; r < 14; r++) print "PFX", "a", "0", substr(word(r * 7), 1, 3), "." }' > strip.aff
awk "$words"' BEGIN { print 50000; for (i = 0; i < 50000; i++) print word(i) "/" substr("ABCDEFGHIJKLMNOPQRSTUVWXYZ", i % 26 + 1, 1) "a" }' > strip.dic
awk "$words"' BEGIN { for (k = 0; k < 1000; k++) { i = (k * 7919) % 100000; printf "%s%s%s", k % 3 == 0 ? "dab" : "", word(i), k % 10 == 9 ? "\n" : " " } }' > strip.text

awk "$words"' BEGIN { print "FLAG num"; print "SFX 1 Y 100000"; for (r = 0; r < 100000; r++) print "SFX", 1, "0", "s", "[^" substr(word(r), 1, 9) "]" word(r) }' > conditions.aff
awk "$words"' BEGIN { print "FLAG num"; print "SFX 1 Y 100000"; for (r = 0; r < 100000; r++) print "SFX", 1, word(r), "s", "." }' > strips.aff
awk "$words"' BEGIN { print 50000; for (i = 0; i < 50000; i++) print word(i) "/1" }' > conditions.dic
awk "$words"' BEGIN { for (k = 0; k < 1000; k++) printf "%ss%s", word((k * 7919) % 100000), k % 10 == 9 ? "\n" : " " }' > conditions.text
head -n 10 conditions.text > strips.text
printf 'SFX A Y 1\nSFX A 0 s .\nPFX B Y 1\nPFX B 0 re .\n' > homonyms.aff
awk 'BEGIN { print 1000; for (i = 0; i < 1000; i++) print "work/AB" }' > homonyms.dic
awk 'BEGIN { count = split("work works rework reworks", words, " "); for (k = 0; k < 1000; k++) printf "%s%s", words[k % count + 1], k % 10 == 9 ? "\n" : " " }' > homonyms.text
awk 'BEGIN { print 1000000; for (i = 0; i < 1000000; i++) printf "preco%06d/AB\n", i }' > fronts.dic
awk 'BEGIN { for (k = 0; k < 1000; k++) printf "preco%06d%s%s", (k * 7919) % 1000000, k % 2 ? "s" : "", k % 10 == 9 ? "\n" : " " }' > fronts.text

# Tables of 65,000 rows. A word of 100 characters is the first one of each text; in the lines behind it stands one long word each.
letters='function letters(count, made) { for (seed = 1; length(made) < count; ) { seed = (seed * 75 + 74) % 65537; made = made substr("abcdefghijklmnopqrstuvwxyz", seed % 26 + 1, 1) } return made }'
same='function same(count, made) { made = "a"; while (length(made) < count) made = made made; return substr(made, 1, count) }'
for table in ICONV BREAK; do
    end=; if [ $table = ICONV ]; then end=' x'; fi
    awk -v table=$table -v "end=$end" "$words"' BEGIN { print table, 65000; for (i = 0; i < 65000; i++) print table, word(i) end }' > $table-different.aff
    awk -v table=$table -v "end=$end" 'BEGIN { print table, 65000; for (i = 0; i < 65000; i++) print table, "aaa" end }' > $table-equal.aff
    awk -v table=$table -v "end=$end" "$same"' BEGIN { print table, 65000; front = same(200); for (i = 0; i < 65000; i++) printf "%s %s%05d%s\n", table, front, i, end }' > $table-alike.aff
done
awk "$letters"' BEGIN { print "BREAK", 65000; word = letters(100); for (made = 0; made < 65000; ) for (i = 1; i <= 100; i++) for (n = 1; n <= 101 - i; n++) for (k = 0; k < 3; k++) if (made++ < 65000) print "BREAK", (k == 1 ? "^" : "") substr(word, i, n) (k == 2 ? "$" : "") }' > BREAK-matching.aff
awk "$words"' BEGIN { for (k = 0; k < 9; k++) printf "%s", word(k * 7919 % 65000); print "b"; for (k = 0; k < 15 * 5957; k++) printf "%s%s", word(k * 7919 % 65000), k % 5957 == 5956 ? "\n" : "" }' > different.text
awk "$same"' BEGIN { print same(100); for (k = 0; k < 15; k++) print same(65536) }' > equal.text
cp equal.text alike.text
awk "$letters"' BEGIN { print letters(100) }' > matching.text

program=$top/out/affedit
measure() {
    local name=$1 said
    shift
    said=$({ /usr/bin/time -f '%e s, %M kB' "$program" check "$@" > out || [ $? -eq 1 ]; } 2>&1 | tail -n 1)
    printf '%-44s %s, %s\n' "$name" "$said" "$(tail -n 1 out)"
}

# The launcher builds the program where it is missing; the program itself is timed.
"$top/affedit" check empty zero.dic empty > /dev/null
measure "an .aff of 16 MB, $(wc -l < lines.aff) lines" lines.aff zero.dic empty
measure "an .aff of 16 MB, $(wc -l < short.aff) lines" short.aff zero.dic empty
measure "an .aff of 100,000 rules" rules.aff zero.dic empty
measure "a .dic of 1,000,000 entries" empty million.dic empty
measure "300 rules, 50,000 entries, 1,000 words" strip.aff strip.dic strip.text
measure "100,000 rules of one text and other conditions" conditions.aff conditions.dic conditions.text
measure "100,000 rules that strip others, 100 words" strips.aff conditions.dic strips.text
measure "1,000 entries of one word" homonyms.aff homonyms.dic homonyms.text
measure "1,000,000 entries that begin alike" homonyms.aff fronts.dic fronts.text
for shape in different equal alike; do
    for table in ICONV BREAK; do
        head -n 1 $shape.text > short.text
        measure "65,000 rows of $table, $shape, a word of 100" $table-$shape.aff zero.dic short.text
        measure "65,000 rows of $table, $shape, 15 of 65,500" $table-$shape.aff zero.dic $shape.text
    done
done
measure "65,000 rows of BREAK that match a word of 100" BREAK-matching.aff zero.dic matching.text
