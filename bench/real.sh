#!/usr/bin/env bash
# Tries every hunspell dictionary that Debian packages, and prints tables in Markdown. The first has a row for each pair of files. It says
# whether the pair is read as it is packaged, or which line stops it. It says what tools/prepare-dictionary changes, with `--lossy`
# where it is refused without, and whether that pair is read, in which processor seconds and with how much memory at most.
# The second compares answers by the prepared pair with those of hunspell's library by the pair as it is packaged. The words are the
# different ones of a text in its language, without those that the dictionary's encoding has no characters for. Each word that only one of
# the two refuses is put under a reason, which docs/DECISIONS.md has, or is listed as one without. Pairs that need --lossy have no reasons.
# Texts are those of LibreOffice's help and of manual pages, without markup. The status is 1 where a difference has no reason.
# Packages are fetched and unpacked, not installed. Needs libhunspell-dev and g++. With a folder as its argument, packages are kept in
# it, and fetched only where they are not there.
set -euo pipefail
top=$(cd "$(dirname "$0")/.." && pwd)
work=$(mktemp -d)
trap 'rm -rf "$work"' EXIT
store=$(mkdir -p "${1:-$work/packages}" && cd "${1:-$work/packages}" && pwd)
cd "$work"
export LC_ALL=C.UTF-8

# shellcheck source=bench/packages.bash
source "$top/bench/packages.bash"

# The different words of a text: letters and marks, with apostrophes between them, as `check` cuts them.
words_of() {
    unpack "$1"
    running_text "$1" | grep -aoP "\p{L}[\p{L}\p{M}]*(['’][\p{L}\p{M}]+)*" | LC_ALL=C sort -u
}

# Prints those of the words on standard input that hunspell's library refuses.
cat > judge.cc << 'CODE'
#include <hunspell/hunspell.hxx>
#include <iconv.h>
#include <iostream>
#include <string>
int main(int, char **names) {
    Hunspell dictionary(names[1], names[2]);
    iconv_t converter = iconv_open(names[3], "UTF-8");
    std::ios::sync_with_stdio(false);
    std::string word;
    while (std::getline(std::cin, word)) {
        char bytes[4096], *from = word.data(), *to = bytes;
        size_t left = word.size(), room = sizeof bytes;
        iconv(converter, nullptr, nullptr, nullptr, nullptr);
        if (iconv(converter, &from, &left, &to, &room) == (size_t)-1 || !dictionary.spell(std::string(bytes, to))) std::cout << word << '\n';
    }
}
CODE
# shellcheck disable=SC2046
g++ -std=c++17 -O2 -o judge judge.cc $(pkg-config --cflags --libs hunspell)

# The launcher builds the program where it is missing; the program itself is timed.
printf '0\n' > zero.dic
"$top/affedit" check /dev/null zero.dic /dev/null > /dev/null
program=$top/out/affedit

# What `check` says of a dictionary, with the line that stops it: `read`, or `aff 5 LeftOut: COMPLEXPREFIXES`. Its processor seconds
# and the most memory stand in the file `cost`.
tried() {
    local aff=$1 said kind line
    said=$(/usr/bin/time -q -o cost -f '%U %S %M' "$program" check "$aff" "${aff%.aff}.dic" /dev/null) || true
    case $said in
        '0 of 0') echo read ;;
        'aff '* | 'dic '*)
            read -r kind line _ <<< "$said"
            echo "\`$said\`: \`$(LC_ALL=C sed -n "${line}{s/\r\$//;p;q}" "${aff%.aff}.$kind" | iconv -c -f UTF-8 -t UTF-8 | tr '|\t' '/ ' | cut -c 1-40)\`"
            ;;
        *) echo "\`$said\`" ;;
    esac
}

mapfile -t packages < <({ apt-cache search '^hunspell-'; apt-cache search '^myspell-'; } | cut -d ' ' -f 1 | grep -E '^(hunspell|myspell)-' | LC_ALL=C sort -u)
fetch "${packages[@]}"
# What was changed, in short: each kind of change once, without its place and its number of lines.
short() {
    if grep -q 'byte for byte' "$1"; then
        echo none
    else
        sed -n "s/^[^ ]*:[0-9]*: //p" "$1" | sed '/^SET UTF-8 in place/d; s/converted from \(.*\) to UTF-8/from \1/; s/ ([0-9]* lines, of which.*//; s/: `.*//; s/: the count mended/, mended/; s/ left out: .*/ left out/; s/, to make the file small enough//' \
            | sed 's/the compound rule .* left out/compound rules left out/' | tr '|' '/' | awk '!seen[$0]++' | paste -s -d ';' | sed 's/;/; /g'
    fi
}

mkdir prepared
echo '| package | dictionary | as it is packaged | changes | prepared | load | memory |'
echo '|---|---|---|---|---|---|---|'
count=0
plain=0
loaded=0
names=()
for package in "${packages[@]}"; do
    unpack "$package"
    while read -r aff; do
        name=$(basename "$aff" .aff)
        to=prepared/$package-$name
        packaged=$(tried "$aff")
        count=$((count + 1))
        load='|'
        now=refused
        if prepare "$aff" "$to"; then
            now=$(tried "$to.aff")
            [ ! -s "$to.refused" ] || now+=", with \`--lossy\`"
        fi
        if [ "${now#read}" != "$now" ]; then
            loaded=$((loaded + 1))
            [ -s "$to.refused" ] || plain=$((plain + 1))
            names+=("$package $name $aff")
            load=$(awk '{ printf "%.2f s | %d MB", $1 + $2, $3 / 1024 }' cost)
        fi
        echo "| $package $(version "$package") | $name | $packaged | $(short "$to.changes") | $now | $load |"
    done < <(find "$package" -name '*.aff' -type f | LC_ALL=C sort)
done
echo
echo "Of $count pairs of files $plain are read once they are prepared, and $loaded with \`--lossy\`."
echo

# refused BY BASE PACKAGED: those of the words in the file `words` that are refused here by BASE.aff and BASE.dic, or by hunspell by
# PACKAGED.aff and PACKAGED.dic. A text that is checked has at most 20,000 lines, so of more words as many are checked at once.
refused() {
    local part
    if [ "$1" = here ]; then
        rm -f part.*
        split -l 20000 words part.
        for part in $(compgen -G 'part.*'); do
            "$program" check "$2.aff" "$2.dic" "$part" > out || [ $? -eq 1 ]
            head -n -1 out | cut -d ' ' -f 1 | uniq | awk 'NR == FNR { marked[$1]; next } FNR in marked' - "$part"
        done | LC_ALL=C sort
    else
        ./judge "$3.aff" "$3.dic" "$encoding" < words 2> /dev/null | LC_ALL=C sort
    fi
}

# Judges the words by both, into the files `only.here` and `only.hunspell`.
compare() {
    refused here "$1" "$2" > refused.here
    refused hunspell "$1" "$2" > refused.hunspell
    LC_ALL=C comm -23 refused.here refused.hunspell > only.here
    LC_ALL=C comm -13 refused.here refused.hunspell > only.hunspell
}

# take KIND: the words of the file `taken` are of this kind, and no longer in the files `left.here` and `left.hunspell`.
take() {
    [ -s taken ] || return 0
    sed "s/^/$1 /" taken >> kinds
    for side in here hunspell; do
        LC_ALL=C comm -23 "left.$side" taken > rest
        mv rest "left.$side"
    done
}

# take_form KIND SIDE PATTERN CHANGE ACCEPTED: words of this kind are only refused by that side, fit the pattern, and sed makes forms of
# them that both accept, or that both refuse.
take_form() {
    local kind=$1 side=$2 pattern=$3 change=$4 accepted=$5
    grep -P "$pattern" "left.$side" > fitting || true
    sed "$change" fitting > words
    refused here "$base" "$original" > refused.here
    refused hunspell "$base" "$original" > refused.hunspell
    paste -d ' ' fitting words | awk -v "accepted=$accepted" '
        FILENAME == "refused.here" { here[$1]; next }
        FILENAME == "refused.hunspell" { there[$1]; next }
        accepted ? !($2 in here) && !($2 in there) : ($2 in here) && ($2 in there) { print $1 }' refused.here refused.hunspell - | LC_ALL=C sort > taken
    take "$kind"
}

# take_option KIND SIDE CHANGE: words of this kind are only refused by that side, and not where sed has changed the .aff file.
take_option() {
    local kind=$1 side=$2 change=$3
    [ -s "left.$side" ] || return 0
    sed "$change" "$base.aff" > changed.aff
    cmp -s "$base.aff" changed.aff && return 0
    LC_ALL=C sed "$change" "$original.aff" > original.aff
    ln -sf "$base.dic" changed.dic
    ln -sf "$original.dic" original.dic
    cp "left.$side" words
    compare changed original
    LC_ALL=C sort only.here only.hunspell | LC_ALL=C comm -23 words - > taken
    take "$kind"
}

echo '| dictionary | text | different words | refused | by hunspell | only one of the two refuses |'
echo '|---|---|---|---|---|---|'
: > all
for pair in "${names[@]}"; do
    read -r package name aff <<< "$pair"
    text=$(text_package "$name")
    [ -n "$text" ] || continue
    base=prepared/$package-$name
    original=${aff%.aff}
    encoding=$(encoding_of "$aff")
    words_of "$text" > all.words
    # The words that the encoding has.
    iconv -c -f UTF-8 -t "$encoding" all.words | iconv -f "$encoding" -t UTF-8 | paste -d ' ' - all.words | awk '$1 == $2 { print $1 }' > text.words
    cp text.words words
    compare "$base" "$original"
    row="| \`$package $name\` | $text $(version "$text") | $(wc -l < words) | $(wc -l < refused.here) | $(wc -l < refused.hunspell) |"
    cp only.here left.here
    cp only.hunspell left.hunspell
    : > kinds
    if [ -s "$base.refused" ]; then
        echo "$row $(wc -l < only.here) here, $(wc -l < only.hunspell) by hunspell: with \`--lossy\` |"
        continue
    fi
    take_form capitals here '^[^\p{Ll}]+$' 's/.*/\L&/' ''
    take_form front hunspell '^\p{Lu}' 's/^./\l&/' 1
    take_form sharp hunspell 'ẞ' 's/^\(.\)\(.*\)/\1\L\2/' 1
    take_option keepcase hunspell '/^KEEPCASE/d'
    take_option forbidden-case hunspell '/^FORBIDDENWORD/d'
    take_option rule-twice here '/^CHECKCOMPOUNDDUP/d'
    take_option rep-inside hunspell '/^CHECKCOMPOUNDREP/d'
    take_option rep-anchored here 's/^REP[ \t]*\(\^[^ \t]*\|[^ \t]*\$\)[ \t].*/REP ☃ ☃/'
    take_option circumfix here '/^CIRCUMFIX/d'
    take_option only-inside hunspell '/^ONLYINCOMPOUND/d'
    take_option language hunspell '/^LANG/d'
    take_option language here '/^LANG/d'
    take_form dotted here 'İ' 's/İ/i/g; s/.*/\L&/' 1
    take_option one-derivation hunspell '/^COMPOUNDRULE/d'
    take_option affix-flag hunspell '/^COMPOUND\(END\|LAST\)/d'
    grep -q '^COMPOUND' "$base.aff" && take_option prefix-inside here '/^PFX/d'
    take_option shortened-part hunspell 's/^COMPOUNDMIN .*/COMPOUNDMIN 1/'
    cat left.here left.hunspell > taken
    take unexplained
    sed "s/$/ $name/" kinds >> all
    row+=" $(cut -d ' ' -f 1 kinds | sort | uniq -c | awk '{ printf "%s%d %s", NR == 1 ? "" : ", ", $1, $2 }') |"
    echo "$row"
done
echo
echo '| kind | words | as |'
echo '|---|---|---|'
awk '{ count[$1]++; if (!($1 in example)) example[$1] = "`" $2 "` in `" $3 "`" } END { for (kind in count) print "| " kind " | " count[kind] " | " example[kind] " |" }' all | sort
if grep '^unexplained' all >&2; then
    exit 1
fi
