#!/usr/bin/env bash
# Judges words by a real dictionary with compounds, here and by hunspell: 4,000 of its entries' words, and 3,000 pairs of them that
# are written as one word. Prints how many each refuses, which words only one of the two refuses, and the processor seconds and
# the most memory of both. The dictionary is a package of Debian, which is fetched and unpacked, and not installed; it is converted
# to UTF-8, and both read the same files. The arguments are the package, the name of the dictionary, and what sed makes of the
# .aff file before, as leaving a line out that is not read: German, and nothing, if there are none. Needs hunspell.
set -euo pipefail
top=$(cd "$(dirname "$0")/.." && pwd)
package=${1:-hunspell-de-de}
name=${2:-de_DE}
mend=${3-}
work=$(mktemp -d)
trap 'rm -rf "$work"' EXIT
cd "$work"

apt-get download "$package" > /dev/null 2>&1
file=$(echo *.deb)
echo "$file"
dpkg-deb -x "$file" .
encoding=$(awk '$1 == "SET" { sub(/\r$/, "", $2); print $2; exit }' "usr/share/hunspell/$name.aff")
iconv -f "${encoding/ISO8859/ISO-8859}" -t UTF-8 "usr/share/hunspell/$name.aff" | sed -e 's/^SET .*/SET UTF-8/' -e "$mend" > it.aff
iconv -f "${encoding/ISO8859/ISO-8859}" -t UTF-8 "usr/share/hunspell/$name.dic" > it.dic

# Words of letters alone, which both cut out alike. The same ones are drawn at each run.
tail -n +2 it.dic | cut -d / -f 1 | LC_ALL=C.UTF-8 grep -xE '[[:alpha:]]{2,}' | LC_ALL=C sort -u > all
awk -v count=4000 'BEGIN { srand(7) } { at[NR] = $0 } END { for (k = 0; k < count; k++) print at[int(rand() * NR) + 1] }' all > words
awk -v count=3000 'BEGIN { srand(11) } { at[NR] = $0 } END { for (k = 0; k < count; k++) print at[int(rand() * NR) + 1] at[int(rand() * NR) + 1] }' all > pairs
cat words pairs | LC_ALL=C sort -u > text

# The launcher builds the program where it is missing; the program itself is timed.
: > empty
"$top/affedit" check it.aff it.dic empty > /dev/null
check=("$top/out/affedit" check it.aff it.dic)
seconds() {
    { /usr/bin/time -f '%U %S %M' "$@" > out || [ $? -eq 1 ]; } 2>&1 | tail -n 1 | awk '{ printf "%.2f s, %d MB", $1 + $2, $3 / 1024 }'
}
echo "here: the load $(seconds "${check[@]}" empty), with $(wc -l < text) words $(seconds "${check[@]}" text)"
head -n -1 out | cut -d ' ' -f 4- | LC_ALL=C sort -u > refused
echo "hunspell: the load $(seconds hunspell -d "$work/it" -i UTF-8 -l empty), with them $(seconds hunspell -d "$work/it" -i UTF-8 -l text)"
LC_ALL=C sort -u out > refused.hunspell
echo "refused $(wc -l < refused), by hunspell $(wc -l < refused.hunspell)"
echo "only here: $(LC_ALL=C comm -23 refused refused.hunspell | tr '\n' ' ')"
echo "only by hunspell: $(LC_ALL=C comm -13 refused refused.hunspell | tr '\n' ' ')"
