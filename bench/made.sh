#!/usr/bin/env bash
# Times `make START SIZE`, 7 and 50,000 where they are not given, and runs it twice. Ends with status 1 if the runs differ, or print
# other numbers than awk finds here by the rules of what is made, without the program.
set -euo pipefail
top=$(cd "$(dirname "$0")/.." && pwd)
start=${1:-7} size=${2:-50000}
work=$(mktemp -d)
trap 'rm -rf "$work"' EXIT

awk -v start="$start" -v size="$size" '
    function syllable(j) { return substr("bdfgklmnrt", int(j / 5) + 1, 1) substr("aeiou", j % 5 + 1, 1) }
    function stem(i) { return syllable(i % 50) syllable(int(i / 50) % 50) syllable(int(i / 2500) % 50) }
    function suffixed(s) { return s ~ /a$/ ? substr(s, 1, length(s) - 1) "en" : s "n" }
    BEGIN {
        for (i = 0; i < size; i++) {
            s = stem(i)
            known[s]
            if (i % 4 == 1 || i % 4 == 3) known["re" s]
            if (i % 4 == 2 || i % 4 == 3) known[suffixed(s)]
            if (i % 4 == 3) known["re" suffixed(s)]
        }
        x = start % 1048576
        for (k = 0; k < size; k++) {
            x = (x * 1229 + 351) % 1048576
            s = stem(int(x / 16) % size)
            kind = int(x / 262144)
            if (kind >= 2) s = suffixed(s)
            if (kind % 2 == 1) s = "re" s
            if (!(s in known)) marks++
        }
        printf "entries %d\nwords %d\nmarks %d\n", size, size, marks
    }' > "$work/want"

# The launcher builds the program where it is missing; the program itself is timed.
"$top/affedit" make 1 1 > /dev/null
program=$top/out/affedit
for run in first second; do
    /usr/bin/time -q -f '%U %S %M' -o "$work/said" "$program" make "$start" "$size" > "$work/$run" || [ $? -eq 1 ]
done
cmp "$work/first" "$work/second"
cmp "$work/first" "$work/want"
cat "$work/first"
awk '{ printf "%.2f s, %d kB\n", $1 + $2, $3 }' "$work/said"
