#!/usr/bin/env bash
# Whether Enchant is answered by its provider (bindings/enchant) as it has to be: which dictionaries there are, which words of a text `enchant-2 -l`
# lists beside those that `check` marks, what an editor is told of a faulty file, words of a session, and the order of providers. The module is in a
# folder of the test's own, which is mounted over Enchant's in a namespace of the test's own. If Enchant is not installed, or there may be no
# such namespace, all is skipped. Prints what differs; the status is 0 where nothing does.
set -euo pipefail
top=$(cd "$(dirname "$0")/.." && pwd)
# shellcheck source=tests/skips.bash
. "$top/tests/skips.bash"
needs cc pkg-config enchant-2 enchant-lsmod-2
has_enchant_headers || skip_all 'the package libenchant-2-dev'
modules=$(pkg-config --variable=libdir enchant-2)/enchant-2
[ -d "$modules" ] || skip_all 'the package libenchant-2-2'
if unshare -m true 2> /dev/null; then
    apart=(unshare -m)
elif unshare -rm true 2> /dev/null; then
    apart=(unshare -rm)
else
    skip_all 'a namespace of mounts, which this system refuses; root has one'
fi
program=$("$top/tests/program")
# The provider is compiled around the library, which is not built here.
"$top/tests/program" libaffedit.a > /dev/null
work=$(mktemp -d -p /tmp)
trap 'rm -rf "$work"' EXIT
failed=0
module=$("$top/bindings/enchant/build")
cd "$work"
mkdir modules named settings settings/affedit settings/hunspell
cp "$module" modules
# shellcheck disable=SC2046
cc -std=c11 -D_GNU_SOURCE -Wall -Wextra -Werror -o host "$top/tests/enchant/host.c" $(pkg-config --cflags --libs enchant-2 glib-2.0)

# by COMMAND..: runs it where Enchant has the modules of the test.
by() {
    # shellcheck disable=SC2016
    LC_ALL=C.UTF-8 AFFEDIT_DICTIONARIES=$work/named ENCHANT_CONFIG_DIR=$work/settings \
        "${apart[@]}" bash -c 'mount --bind modules "$0" && exec "$@"' "$modules" "$@" 2>&1
}

# wants WHAT WANTED COMMAND..: what the command says.
wants() {
    local said
    said=$(by "${@:3}") || true
    [ "$said" = "$2" ] || { printf '%s:\n%s\nand not\n%s\n' "$1" "$said" "$2"; failed=1; }
}

for name in named/en_XX settings/affedit/en_YY; do
    cp "$top/examples/sample.aff" $name.aff
    cp "$top/examples/sample.dic" $name.dic
done
# A pair with a fault, half a pair, and a file that is too large.
cp named/en_XX.aff named/en_ZZ.aff
printf '1\nread/S\nnot\xffUTF-8\n' > named/en_ZZ.dic
cp named/en_XX.aff named/en_VV.aff
printf 'SET ISO8859-1\n' > named/en_WW.aff
cp named/en_XX.dic named/en_WW.dic
head -c 16777217 /dev/zero > named/en_UU.aff
cp named/en_XX.dic named/en_UU.dic

wants 'the provider' 'affedit (Affedit Provider)' bash -c 'enchant-lsmod-2 | grep affedit'
wants 'the dictionaries' "$(printf '%s (affedit)\n' en_UU en_XX en_YY en_ZZ)" bash -c 'enchant-lsmod-2 -list-dicts | grep "^en_[U-Z][U-Z] "'

# A text of the example and of each word that it knows, right and wrong, of which both cut the same words.
cat "$top/examples/sample.txt" > text
for word in city cities citys fox foxs order reorder orders reorders read reread rereads the was who in; do
    echo "$word ${word^} ${word^^}, x$word; (${word}x) re$word."
done >> text
"$program" check named/en_XX.aff named/en_XX.dic text > marks || true
wanted=$(sed '$d' marks | cut -d ' ' -f 4)
[ "$(wc -l <<< "$wanted")" -gt 40 ] || { echo "the text has too few marks: $(tail -n 1 marks)"; failed=1; }
wants 'the words' "$wanted" enchant-2 -l -d en_XX text
wants 'the words of the folder of settings' "$wanted" enchant-2 -l -d en_YY text

answers=" reorders 0 citys 1 extra '’0123456789 at 1000010110,1110010110,1000010110"' bytes 1 qat 1 qat 0 Qat 1 read 0 dogs 1 qat 1 suggestions 0'
wants 'a host' "en_XX:$answers
en_ZZ: $work/named/en_ZZ.dic:3: the line is not UTF-8
en_WW: $work/named/en_WW.aff:1: the file is in another encoding than UTF-8
en_UU: $work/named/en_UU.aff: the file has more than 16,777,216 bytes
en_VV: there is none
en_YY:$answers" ./host en_XX en_ZZ en_WW en_UU en_VV en_YY
if has 'the provider for Enchant by valgrind' valgrind; then
    by env G_SLICE=always-malloc valgrind -q --error-exitcode=9 --leak-check=full --show-leak-kinds=definite --errors-for-leak-kinds=definite \
        ./host en_XX en_ZZ en_VV > said || { echo "valgrind: status $?"; tail -n 20 said; failed=1; }
fi

# The order of providers: by hunspell's where nothing is said, by this one where the user's file says so, and by the next one where it has a fault.
if [ -f "$modules/enchant_hunspell.so" ]; then
    cp "$modules/enchant_hunspell.so" modules
    cp named/en_XX.aff settings/hunspell/en_XX.aff
    cp named/en_XX.dic settings/hunspell/en_XX.dic
    wants 'no order' 'en_XX (hunspell)' enchant-lsmod-2 -lang en_XX
    echo '*:affedit,hunspell' > settings/enchant.ordering
    wants 'an order for all' 'en_XX (affedit)' enchant-lsmod-2 -lang en_XX
    echo 'en_XX:affedit,hunspell' > settings/enchant.ordering
    wants 'an order for one' 'en_XX (affedit)' enchant-lsmod-2 -lang en_XX
    cp named/en_ZZ.dic named/en_XX.dic
    wants 'a fault' 'en_XX (hunspell)' enchant-lsmod-2 -lang en_XX
else
    skip 'the order of providers for Enchant' 'the package libenchant-2-2'
fi
exit "$failed"
