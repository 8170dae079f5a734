#!/usr/bin/env bash
# Times `check`, the library for C, nuspell's library and hunspell's on the same words, by a list of a hundred words and by dictionaries of Debian's
# packages, and prints a row of a table for each, or for those that are named: bench/peers.sh [NAME..], as list or en_US. A second table has the
# instructions that callgrind counts, which do not depend on what else runs: of the load, and for each of the first 30,000 words, the program and
# the library for C in lines of twenty. The words are those of 2 MB of running text in the dictionary's language, cut by this script (letters, with
# apostrophes between them). The libraries judge them one after another; the program reads them in lines of twenty, and in lines of two hundred too,
# and so does the library for C. Seconds are the processor's, the least of three runs; a word is the time of all words, less that of no word, the
# load. The memory is the most that a run on the words used, and a megabyte 1024 kB. What is refused are words that occur. Packages are fetched and
# unpacked, not installed; libhunspell-dev, libnuspell-dev, g++ and valgrind are asked for.
set -euo pipefail
top=$(cd "$(dirname "$0")/.." && pwd)
work=$(mktemp -d)
trap 'rm -rf "$work"' EXIT
cd "$work"
export LC_ALL=C.UTF-8
named=" $* "

# shellcheck source=bench/peers.bash
. "$top/bench/peers.bash"
build_hunspell
build_nuspell

# Such a program by the library for C: `library AFF DIC WORDS`, a call for each word, and `library text AFF DIC TEXT`, one for each line.
cat > library.cc << 'CODE'
#include <affedit.h>
#include <fstream>
#include <iostream>
#include <iterator>
static std::string all(const char *name) {
    std::ifstream file(name);
    return std::string(std::istreambuf_iterator<char>(file), {});
}
static const uint8_t *bytes(const std::string &text) { return reinterpret_cast<const uint8_t *>(text.data()); }
int main(int count, char **names) {
    bool is_text = count == 5;
    names += is_text;
    affedit_dictionary dictionary = AFFEDIT_CLOSED_HANDLE;
    affedit_fault fault{};
    {
        std::string aff = all(names[1]), dic = all(names[2]);
        if (affedit_open(bytes(aff), aff.size(), bytes(dic), dic.size(), &dictionary, &fault) != AFFEDIT_DONE) return 1;
    }
    std::ifstream lines(names[3]);
    std::string line;
    size_t refused = 0, marks = 0;
    affedit_mark first{};
    while (std::getline(lines, line))
        if (!is_text)
            refused += affedit_word(&dictionary, bytes(line), line.size()) != AFFEDIT_KNOWN;
        else if (affedit_marks(&dictionary, bytes(line), line.size(), &first, 1, &marks) == AFFEDIT_DONE)
            refused += marks;
    std::cout << refused << " refused\n";
    affedit_close(&dictionary);
}
CODE
g++ -std=c++17 -O2 -I"$top/include" -o library library.cc "$("$top/tools/library")"

# The package in a folder of its name.
unpack() {
    (mkdir "$1" && cd "$1" && apt-get download "$1" > /dev/null 2>&1 && echo ./*.deb >&2 && dpkg-deb -x ./*.deb .)
}

# The least processor seconds and the least of the most kB of three runs, which leave what is said in `out`.
measure() {
    local TIMEFORMAT='%U %S'
    rm -f seconds memory
    for _ in 1 2 3; do
        { time /usr/bin/time -q -a -o memory -f '%M' "$@" > out || true; } 2>> seconds
    done
    echo "$(awk '{ print $1 + $2 }' seconds | sort -n | head -n 1) $(sort -n memory | head -n 1)"
}

# The cells of one peer: load, a word, memory, refused; of the program a word in lines of twenty, and then in lines of two hundred.
cells() {
    local load spent long='' memory words=words
    read -r load _ <<< "$(measure "$@" /dev/null)"
    if [ $# -eq 4 ]; then
        words=twenties
        read -r long _ <<< "$(measure "$@" hundreds)"
    fi
    read -r spent memory <<< "$(measure "$@" "$words")"
    awk -v load="$load" -v spent="$spent" -v long="$long" -v memory="$memory" -v count="$count" -v refused="$(cut -d ' ' -f 1 <<< "$(tail -n 1 out)")" 'BEGIN {
        printf " %.2f s | %.2f μs |", load, (spent - load) * 1e6 / count
        if (long != "") printf " %.2f μs |", (long - load) * 1e6 / count
        printf " %.0f MB | %d |", memory / 1024, refused }'
}

# The cells of one peer: millions of instructions of the load, and instructions of a word.
counted() {
    local load spent words=few
    [ $# -ne 4 ] || words=fewtwenties
    load=$(instructions "$@" /dev/null)
    spent=$(instructions "$@" "$words")
    awk -v load="$load" -v spent="$spent" -v count="$(wc -l < few)" 'BEGIN { printf " %.0f M | %.0f |", load / 1e6, (spent - load) / count }'
}

# The words of a file, so many in a line.
in_lines_of() { awk -v "many=$1" '{ printf "%s%s", $0, NR % many ? " " : "\n" }' "${2:-words}"; }

# The row of a dictionary, on the words of the file `words`.
row() {
    local name=$1 said
    count=$(wc -l < words)
    in_lines_of 20 > twenties
    in_lines_of 200 > hundreds
    head -n 30000 words > few
    in_lines_of 20 few > fewtwenties
    if ! said=$("$program" check "$name.aff" "$name.dic" /dev/null); then
        echo "$name: check says $said" >&2
        return
    fi
    echo "| ${name##*/} | $count |$(cells "$program" check "$name.aff" "$name.dic")$(cells ./library "$name.aff" "$name.dic")$(cells ./library text "$name.aff" "$name.dic")$(cells ./nuspell "$name.aff" "$name.dic")$(cells ./hunspell "$name.aff" "$name.dic")"
    echo "| ${name##*/} |$(counted "$program" check "$name.aff" "$name.dic")$(counted ./library "$name.aff" "$name.dic")$(counted ./library text "$name.aff" "$name.dic")$(counted ./nuspell "$name.aff" "$name.dic")$(counted ./hunspell "$name.aff" "$name.dic")" >> counts
}

# Both files in UTF-8, where they are in another encoding.
convert() {
    local from file
    from=$(sed -n 's/\r$//; s/^\(\xef\xbb\xbf\)\?SET *//p' "$1.aff" | head -n 1)
    if [ -n "$from" ] && [ "$from" != UTF-8 ]; then
        for file in "$1.aff" "$1.dic"; do
            iconv -f "${from/ISO8859/ISO-8859}" -t UTF-8 "$file" | sed 's/^SET .*/SET UTF-8/' > converted
            mv converted "$file"
        done
    fi
}

# The words of 2 MB of the running text of a package: the Debian Reference, or manual pages without their markup.
words_of() {
    cat "$1"/usr/share/debian-reference/*.txt.gz "$1"/usr/share/man/*/man[1-8]/*.gz 2> /dev/null | zcat | sed "/^[.']/d; s/\\\\f[A-Z]//g; s/\\\\-/-/g" > running || true
    cat running running running | head -c 2000000 | grep -aoE "[[:alpha:]]+(['’][[:alpha:]]+)*" > words || true
}

# The launcher builds the program where it is missing; the program itself is timed.
printf '0\n' > zero.dic
"$top/affedit" check /dev/null zero.dic /dev/null > /dev/null
program=$top/out/affedit
echo '| dictionary | words | load | a word in twenties | in two hundreds | memory | refused | C: load | a word | memory | refused | C, lines: load | a word in twenties | in two hundreds | memory | refused | nuspell: load | a word | memory | refused | hunspell: load | a word | memory | refused |'
echo '|---|---|---|---|---|---|---|---|---|---|---|---|---|---|---|---|---|---|---|---|---|---|---|---|'

# A word of three syllables for a number, as babebi for 0; every tenth word is no word of the list.
word='function word(i) { return substr("bdfgklmnrt", i % 10 + 1, 1) "a" substr("bdfgklmnrt", int(i / 10) % 10 + 1, 1) "e" substr("bdfgklmnrt", int(i / 100) % 10 + 1, 1) "i" }'
printf 'SET UTF-8\n' > list.aff
awk "$word"' BEGIN { print 100; for (i = 0; i < 100; i++) print word(i) }' > list.dic
awk "$word"' BEGIN { for (l = 0; l < 300000; l++) print word((l * 7) % 100 + (l % 10 == 9 ? 100 : 0)) }' > words
is_wanted() { [ "$named" = '  ' ] || [[ $named == *" $1 "* ]]; }
! is_wanted list || row list
while read -r package name manual; do
    is_wanted "$name" || continue
    unpack "$package"
    unpack "$manual"
    convert "$package/usr/share/hunspell/$name"
    words_of "$manual"
    row "$package/usr/share/hunspell/$name"
done << PAIRS
hunspell-en-us en_US debian-reference-en
hunspell-de-de-frami de_DE_frami debian-reference-de
hunspell-nl nl manpages-nl
hunspell-fr-classical fr debian-reference-fr
hunspell-es es_ES debian-reference-es
hunspell-it it_IT debian-reference-it
hunspell-pt-br pt_BR debian-reference-pt-br
hunspell-ru ru_RU manpages-ru
hunspell-uk uk_UA manpages-uk
hunspell-pl pl_PL manpages-pl
hunspell-cs cs_CZ manpages-cs
PAIRS
echo
echo '| dictionary | load | a word | C: load | a word | C, lines: load | a word | nuspell: load | a word | hunspell: load | a word |'
echo '|---|---|---|---|---|---|---|---|---|---|---|'
cat counts
