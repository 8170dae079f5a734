#!/usr/bin/env bash
# Tries every hunspell dictionary that Debian packages by its name, with tools/affedit-check and nothing converted by hand, and prints two
# tables in Markdown. The first has a row for each pair of files: whether it is read, with which marks of 500 of its own entries, whether
# words are judged with a loss, and the wall seconds of the first run, which prepares it, and of the second one.
# The second table has the times of affedit-check, `hunspell -l` and nuspell for a folder of 2,000 English texts, those of affedit-check for a
# folder of 10,000 texts and for one text of the same bytes, and how many words each marks. A program that is not there is left out, and
# one is stopped after 300 seconds. Packages are fetched and unpacked, not installed.
# With a folder as its argument, packages are kept in it, and fetched only if they are not there. The status is 1 if a dictionary is not read.
set -euo pipefail
top=$(cd "$(dirname "$0")/.." && pwd)
work=$(mktemp -d)
trap 'rm -rf "$work"' EXIT
store=$(mkdir -p "${1:-$work/packages}" && cd "${1:-$work/packages}" && pwd)
cd "$work"
export LC_ALL=C.UTF-8 XDG_CACHE_HOME=$work/cache XDG_DATA_HOME=$work/data XDG_CONFIG_HOME=$work/config

# shellcheck source=bench/packages.bash
source "$top/bench/packages.bash"

# 500 entries of the dictionary, in UTF-8 and without their flags: those that stand evenly in the file.
entries() {
    local count step
    count=$(wc -l < "${1%.aff}.dic")
    step=$((count / 500 + 1))
    awk -v step="$step" 'NR > 1 && NR % step == 0' "${1%.aff}.dic" \
        | iconv -c -f "$(encoding_of "$1")" -t UTF-8 | sed 's/[/\t].*//; s/\r$//'
}

# run NAME FILE: affedit-check by this name, with its status in `status`, its last line in the file `count` and what it says in `said`.
run() {
    status=0
    /usr/bin/time -q -o cost -f '%e' "$top/tools/affedit-check" -d "$1" --all --count "$2" > count 2> said || status=$?
}

mapfile -t packages < <({ apt-cache search '^hunspell-'; apt-cache search '^myspell-'; } | cut -d ' ' -f 1 | grep -E '^(hunspell|myspell)-' | LC_ALL=C sort -u)
fetch "${packages[@]}"
echo '| package | name | marks of entries | loss | first run | second run |'
echo '|---|---|---|---|---|---|'
count=0
read=0
lossy=0
for package in "${packages[@]}"; do
    unpack "$package"
    while read -r aff; do
        name=$(basename "$aff" .aff)
        export DICPATH=$work/${aff%/*}
        count=$((count + 1))
        entries "$aff" > text
        run "$name" text
        first=$(tail -n 1 cost)
        marks=$(tail -n 1 count)
        loss=$(sed -n 's/.*: prepared with a loss: //p' said | head -n 1)
        if [ "$status" -gt 1 ]; then
            marks="status $status: $(tail -n 1 said)"
        else
            read=$((read + 1))
            [ -z "$loss" ] || lossy=$((lossy + 1))
        fi
        run "$name" text
        echo "| $package | $name | $marks | ${loss:-none} | $first s | $(tail -n 1 cost) s |"
    done < <(find "$package" -name '*.aff' -type f | LC_ALL=C sort)
done
echo
echo "Of $count pairs of files $read are read by their names, $lossy of them with a loss."
echo

# The folder of texts: running text of LibreOffice's help, in 2,000 files of equal size.
unpack libreoffice-help-en-us
unpack hunspell-en-us
DICPATH=$work/$(dirname "$(find hunspell-en-us -name en_US.aff | head -n 1)")
export DICPATH
mkdir texts
running_text libreoffice-help-en-us > all
split -n l/2000 -a 4 -d --additional-suffix=.txt all texts/
echo "2,000 texts of $(wc -c < all) bytes in all, $(wc -w < all) words:"
echo
echo '| program | wall | processor | words that are marked |'
echo '|---|---|---|---|'
# row WHAT COMMAND..: a row of the table. The best of three runs counts; one that takes more than 300 seconds is stopped, and counts alone.
row() {
    local what=$1 marked ended
    shift
    rm -f costs
    for _ in 1 2 3; do
        ended=0
        /usr/bin/time -q -o cost -f '%e %U %S' timeout 300 "$@" > marked 2> /dev/null < /dev/null || ended=$?
        tail -n 1 cost >> costs
        [ "$ended" != 124 ] || break
    done
    case $what in
        nuspell*) marked=$(grep -c '^[&#] Wrong' marked) || true ;;
        *) marked=$(wc -l < marked) ;;
    esac
    [ "$ended" != 124 ] || marked+=', when it was stopped'
    echo "| $what | $(LC_ALL=C sort -n costs | awk 'NR == 1 { printf "%.2f s | %.2f s", $1, $2 + $3 }') | $marked |"
}
row 'affedit-check -l FOLDER' "$top/tools/affedit-check" -d en_US -l texts
row 'affedit-check -l --all FOLDER' "$top/tools/affedit-check" -d en_US -l --all texts
[ -z "$(type -P hunspell)" ] || row 'hunspell -l FILES' hunspell -d en_US -i UTF-8 -l texts/*
cat all all all > large
mkdir many
split -n l/10000 -a 5 -d --additional-suffix=.txt large many/
row "affedit-check -l, a folder of 10,000 texts of $(wc -c < large) bytes in all" "$top/tools/affedit-check" -d en_US -l many
row 'affedit-check -l, one text of the same bytes' "$top/tools/affedit-check" -d en_US -l large
# This program has no option that leaves suggestions out, and makes them for each word that it marks.
[ -z "$(type -P nuspell)" ] || row 'nuspell FILES, with suggestions' nuspell -d en_US texts/*
[ "$read" = "$count" ]
