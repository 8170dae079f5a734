#!/usr/bin/env bash
# What tools/prepare-dictionary makes of small dictionaries: each kind of change, each reason to refuse, and bad input. Needs
# Python 3, and is skipped without. Prints what differs; the status is 0 where nothing does.
set -euo pipefail
top=$(cd "$(dirname "$0")/.." && pwd)
# shellcheck source=tests/dictionary_files.bash
. "$top/tests/dictionary_files.bash"
begin
failed=0

# prepare WHAT STATUS WORDS..: the tool ends so, in the folder `in`. It prints what stands on standard input. Behind it stand the two files
# `out`, where they were written, with `\r` for a carriage return, and the names of other files that it has left. Paths are those from the top.
prepare() {
    local what=$1 wanted=$2 status=0 file
    shift 2
    cat > "$work/wanted"
    (cd "$work/in" && "$top/tools/prepare-dictionary" "$@") > "$work/out" 2>&1 || status=$?
    for file in out.aff out.dic; do
        [ ! -e "$work/in/$file" ] || { echo "-- $file"; sed 's/\r/\\r/' "$work/in/$file"; } >> "$work/out"
    done
    find "$work/in" -name '.prepare-*' >> "$work/out"
    sed -i "s|$top/||" "$work/out"
    if ! diff "$work/wanted" "$work/out" || [ "$status" != "$wanted" ]; then
        echo "$what: status $status, wanted $wanted"
        failed=1
    fi
}

# row WHAT AFF DIC, row_lossy and row_refused: of a dictionary that is written, is written with --lossy, or is refused.
row() { made "$2" "$3" && prepare "$1" 0 a.aff a.dic out; }
row_lossy() { made "$2" "$3" && prepare "$1" 0 --lossy a.aff a.dic out; }
row_refused() { made "$2" "$3" && prepare "$1" 1 a.aff a.dic out; }

row 'a dictionary that is read' 'SET UTF-8\r\nSFX A Y 1\nSFX A 0 s .' '1\r\nfoo/A po:noun\n\n' << 'SAID'
out.aff, out.dic: written, byte for byte the same
-- out.aff
SET UTF-8\r
SFX A Y 1
SFX A 0 s .-- out.dic
1\r
foo/A po:noun

SAID
row 'another encoding' '# caf\xe9\nTRY a\nSET ISO8859-2\nWORDCHARS \xb9\n' '1\n\xb9aty\n' << 'SAID'
a.aff:1: converted from ISO8859-2 to UTF-8
a.aff:3: SET UTF-8 in place of SET ISO8859-2
a.dic:1: converted from ISO8859-2 to UTF-8
out.aff, out.dic: written
-- out.aff
# café
TRY a
SET UTF-8
WORDCHARS š
-- out.dic
1
šaty
SAID
row 'an encoding by another name' 'SET microsoft-cp1251\n' '1\n\xe4\xee\xec\n' << 'SAID'
a.aff:1: SET UTF-8 in place of SET microsoft-cp1251
a.dic:1: converted from microsoft-cp1251 to UTF-8
out.aff, out.dic: written
-- out.aff
SET UTF-8
-- out.dic
1
дом
SAID
row 'an encoding of Thai' 'SET TIS620-2533\n' '1\n\xa1\n' << 'SAID'
a.aff:1: SET UTF-8 in place of SET TIS620-2533
a.dic:1: converted from TIS620-2533 to UTF-8
out.aff, out.dic: written
-- out.aff
SET UTF-8
-- out.dic
1
ก
SAID
row_refused 'an encoding that Python has not' 'SET ISCII-DEVANAGARI\n' '1\n\xa1\n' << 'SAID'
prepare-dictionary: the encoding ISCII-DEVANAGARI is not one that Python decodes; another tool has to convert both files
SAID
row_refused 'an encoding that is none' 'SET rot13\n' '1\n\xa1\n' << 'SAID'
prepare-dictionary: the encoding rot13 is none that is known
SAID
row 'no line SET' 'TRY a\n' '1\ncaf\xe9\n' << 'SAID'
a.aff:1: SET UTF-8 put in
a.dic:1: converted from ISO8859-1 to UTF-8
out.aff, out.dic: written
-- out.aff
SET UTF-8
TRY a
-- out.dic
1
café
SAID
row 'a second line SET' 'SET ISO8859-1\nSET ISO8859-1\n' '1\ncaf\xe9\n' << 'SAID'
a.aff:1: SET UTF-8 in place of SET ISO8859-1
a.aff:2: SET left out: it says what line 1 says
a.dic:1: converted from ISO8859-1 to UTF-8
out.aff, out.dic: written
-- out.aff
SET UTF-8
-- out.dic
1
café
SAID
row 'bytes that are not of the encoding' 'SET UTF-8\n# caf\xe9\nWORDCHARS \xc3\xa9\xe8\n' '1\ncaf\xc3\xa9\nn\xe9\xc3\xa9\n' << 'SAID'
a.aff:2: bytes that are not UTF-8 replaced: read as Latin-1 (2 lines, of which this is the first)
a.dic:3: bytes that are not UTF-8 replaced: read as Latin-1
out.aff, out.dic: written
-- out.aff
SET UTF-8
# café
WORDCHARS éè
-- out.dic
1
café
néé
SAID
row 'bytes that ISO8859-7 has not' 'SET ISO8859-7\n' '1\n\xe1\xff\n' << 'SAID'
a.aff:1: SET UTF-8 in place of SET ISO8859-7
a.dic:1: converted from ISO8859-7 to UTF-8
a.dic:2: bytes that are not ISO8859-7 replaced: read as Latin-1
out.aff, out.dic: written
-- out.aff
SET UTF-8
-- out.dic
1
αÿ
SAID
row 'flags that are bytes' 'SET UTF-8\nNEEDAFFIX \xc3\nAF 1\nAF \xc3\xff # 1\nSFX \xff Y 1\nSFX \xff 0 \xc3\xa9/1 .\nCOMPOUNDRULE 1\nCOMPOUNDRULE \xff*\n' '1\nfo\xc3\xa9/1\n' << 'SAID'
a.aff:2: flags that are single bytes read as Latin-1 (5 lines, of which this is the first)
out.aff, out.dic: written
-- out.aff
SET UTF-8
NEEDAFFIX Ã
AF 1
AF Ãÿ # 1
SFX ÿ Y 1
SFX ÿ 0 é/1 .
COMPOUNDRULE 1
COMPOUNDRULE ÿ*
-- out.dic
1
foé/1
SAID
row 'flags of entries that are bytes' 'SET UTF-8\nSFX \xc3\xa9 Y 1\nSFX \xc3\xa9 0 \xc3\xa9 .\n' '1\nfo\xc3\xa9/\xe9\xc3\xa9\n' << 'SAID'
a.aff:2: flags that are single bytes read as Latin-1 (2 lines, of which this is the first)
a.aff:2: text behind the flag Ã dropped: `Ã©` (2 lines, of which this is the first)
a.dic:2: flags that are single bytes read as Latin-1
out.aff, out.dic: written
-- out.aff
SET UTF-8
SFX Ã Y 1
SFX Ã 0 é .
-- out.dic
1
foé/éÃ©
SAID
row 'flags that are bytes, without a fault' 'SET UTF-8\n' '1\nfo\xc3\xa9/\xe9\xc3\xa9\n' << 'SAID'
a.dic:2: flags that are single bytes read as Latin-1
out.aff, out.dic: written
-- out.aff
SET UTF-8
-- out.dic
1
foé/éÃ©
SAID
row 'comments behind fields' 'FLAG long# two\nNEEDAFFIX ab#x\nREP 1#x\nREP a b # c\nSFX AB Y 1# one\nSFX AB 0 s/CD . # plural\n' '1\nfoo/ABC# x\n' << 'SAID'
a.aff:1: a comment behind a field dropped (4 lines, of which this is the first)
out.aff, out.dic: written
-- out.aff
FLAG long
NEEDAFFIX ab
REP 1
REP a b # c
SFX AB Y 1
SFX AB 0 s/CD . # plural
-- out.dic
1
foo/ABC# x
SAID
row 'a comment behind numbers' 'FLAG num\nSFX 1 Y 1\nSFX 1 0 s .\n' '2\nfoo/1 # comment\nbar/1\tpo:noun # x\n' << 'SAID'
a.dic:2: a comment behind flags dropped: `1 # comment`
out.aff, out.dic: written
-- out.aff
FLAG num
SFX 1 Y 1
SFX 1 0 s .
-- out.dic
2
foo/1
bar/1	po:noun # x
SAID
row 'the flag 0 and one that is too large' 'FLAG num\nSFX 0 Y 1\nSFX 0 0 s/65001 .\nSFX 65001 Y 1\nSFX 65001 0 n .\nSFX 60000 Y 1\nSFX 60000 0 t .\n' '3\nfoo/0\nbar/60000,0\nbaz/1,65001,0\n' << 'SAID'
a.aff:2: the flag 0 renamed to 60001 (2 lines, of which this is the first)
a.aff:3: the flag 65001 renamed to 60002 (3 lines, of which this is the first)
a.dic:2: the flag 0 renamed to 60001 (3 lines, of which this is the first)
a.dic:4: the flag 65001 renamed to 60002
out.aff, out.dic: written
-- out.aff
FLAG num
SFX 60001 Y 1
SFX 60001 0 s/60002 .
SFX 60002 Y 1
SFX 60002 0 n .
SFX 60000 Y 1
SFX 60000 0 t .
-- out.dic
3
foo/60001
bar/60000,60001
baz/1,60002,60001
SAID
row 'flags that are parentheses' 'COMPOUNDRULE 2\nCOMPOUNDRULE )k\nCOMPOUNDRULE (a)(b*\nNEEDAFFIX A\n' '3\nfoo/)a\nbar/k(\nbaz/B\n' << 'SAID'
a.aff:2: the flag ) renamed to C
a.aff:3: the flag ( renamed to D
a.dic:2: the flag ) renamed to C
a.dic:3: the flag ( renamed to D
out.aff, out.dic: written
-- out.aff
COMPOUNDRULE 2
COMPOUNDRULE Ck
COMPOUNDRULE (a)Db*
NEEDAFFIX A
-- out.dic
3
foo/Ca
bar/kD
baz/B
SAID
row 'text in flag fields' 'FLAG num\nSFX 1 Y 1\nSFX 1 0 s/17X,18 .\nNEEDAFFIX 5x\n' '2\nfoo/1X,abc\nbar/x\n' << 'SAID'
a.aff:3: text in a flag field that is no flag dropped: `17X,18`
a.aff:4: text behind the flag 5 dropped: `5x`
a.dic:2: text in a flag field that is no flag dropped: `1X,abc` (2 lines, of which this is the first)
out.aff, out.dic: written
-- out.aff
FLAG num
SFX 1 Y 1
SFX 1 0 s/17,18 .
NEEDAFFIX 5
-- out.dic
2
foo/1
bar/
SAID
row 'an odd flag' 'FLAG long\nSFX AB Y 1\nSFX AB 0 s/CDE .\nKEEPCASE x\n' '1\nfoo/ABC\n' << 'SAID'
a.aff:3: text in a flag field that is no flag dropped: `CDE`
a.aff:4: KEEPCASE left out: `x` is nothing that it may have
a.dic:2: text in a flag field that is no flag dropped: `ABC`
out.aff, out.dic: written
-- out.aff
FLAG long
SFX AB Y 1
SFX AB 0 s/CD .
-- out.dic
1
foo/AB
SAID
row 'an address in a rule' 'FLAG long\nSFX AB Y 2\nSFX AB 0 s .\nSFX AB 0 nhttp://example.org/x/enn/AB .\n' '1\nfoo/AB\n' << 'SAID'
a.aff:2: a class announces 2 rules and has 1: the count mended
a.aff:4: a rule left out, into which an address was pasted: `nhttp://example.org/x/enn/AB`
out.aff, out.dic: written
-- out.aff
FLAG long
SFX AB Y 1
SFX AB 0 s .
-- out.dic
1
foo/AB
SAID
row 'a byte order mark, and ends of lines' '\xef\xbb\xbfSET ISO8859-1\r\n' '1\r\ncaf\xe9\r\n' << 'SAID'
a.aff:1: a byte order mark left out
a.aff:1: SET UTF-8 in place of SET ISO8859-1
a.dic:1: converted from ISO8859-1 to UTF-8
out.aff, out.dic: written
-- out.aff
SET UTF-8\r
-- out.dic
1\r
café\r
SAID
row 'a flag type that is none' 'FLAG wide\nFLAG long\n' '1\nfoo/AB\n' << 'SAID'
a.aff:1: FLAG left out: `wide` is nothing that it may have
out.aff, out.dic: written
-- out.aff
FLAG long
-- out.dic
1
foo/AB
SAID
row 'counts' 'AF 3\nAF A\nREP 1\nREP a b\nREP c d\nBREAK 0\nBREAK -\nSFX A Y 3\nSFX A 0 s .\nSFX A 0 t .\nPFX B N\nPFX B 0 u .\nICONV a b\n' '1\nfoo/1\n' << 'SAID'
a.aff:1: AF announces 3 rows and has 1: the count mended
a.aff:3: REP announces 1 rows and has 2: the count mended
a.aff:6: BREAK announces 0 rows and has 1: the count mended
a.aff:8: a class announces 3 rules and has 2: the count mended
a.aff:11: a class announces no count and has 1 rules: the count put in
a.aff:13: ICONV 1 put in, which announces the rows
out.aff, out.dic: written
-- out.aff
AF 1
AF A
REP 2
REP a b
REP c d
BREAK 1
BREAK -
SFX A Y 2
SFX A 0 s .
SFX A 0 t .
PFX B N 1
PFX B 0 u .
ICONV 1
ICONV a b
-- out.dic
1
foo/1
SAID
row 'rows that lack a text' 'REP 2\nREP a\nREP c d\nSFX A Y 2\nSFX A 0\nSFX A 0 s .\nWORDCHARS\nSFX\n' '1\nfoo\n' << 'SAID'
a.aff:1: REP announces 2 rows and has 1: the count mended
a.aff:2: a row of REP left out, which lacks a text
a.aff:4: a class announces 2 rules and has 1: the count mended
a.aff:5: a rule left out, which lacks a text
a.aff:7: WORDCHARS left out: nothing stands behind it
a.aff:8: a line of SFX left out, which has no flag
out.aff, out.dic: written
-- out.aff
REP 1
REP c d
SFX A Y 1
SFX A 0 s .
-- out.dic
1
foo
SAID
row 'a second header of a class' 'SFX A Y 1\nSFX A 0 s .\nSFX A Y 2\nSFX A 0 t .\nSFX A 0 u .\n' '1\nfoo/A\n' << 'SAID'
a.aff:1: a class announces 1 rules and has 3: the count mended
a.aff:3: a further header of a class left out: its rules join those above
out.aff, out.dic: written
-- out.aff
SFX A Y 3
SFX A 0 s .
SFX A 0 t .
SFX A 0 u .
-- out.dic
1
foo/A
SAID
row_refused 'a second header with another cross' 'SFX A Y 1\nSFX A 0 s .\nSFX A N 1\nSFX A 0 t .\n' '1\nfoo/A\n' << 'SAID'
prepare-dictionary: a.aff:3: a further header of a class has another cross: without it its rules have the cross of the first
prepare-dictionary: nothing is written. To leave out these lines: tools/prepare-dictionary --lossy a.aff a.dic out
SAID
row 'a row of AF without flags' 'AF\nAF 3\nAF A\nAF\n' '1\nfoo/2\n' << 'SAID'
a.aff:1: a line of AF before its header left out, which lacks a text
a.aff:2: AF announces 3 rows and has 2: the count mended
a.aff:4: a row of AF without flags gets one that stands nowhere
out.aff, out.dic: written
-- out.aff
AF 2
AF A
AF B
-- out.dic
1
foo/2
SAID
row_refused 'a class without a header' 'SFX A 0 s .\n' '1\nfoo/A\n' << 'SAID'
prepare-dictionary: a.aff:1: BadNumber cannot be mended: `SFX A 0 s .`
SAID
row 'duplicate options' 'COMPOUNDLAST x\nCOMPOUNDEND x\nWORDCHARS a\nWORDCHARS a\n' '1\nfoo\n' << 'SAID'
a.aff:2: COMPOUNDEND left out: it says what line 1 says
a.aff:4: WORDCHARS left out: it says what line 3 says
out.aff, out.dic: written
-- out.aff
COMPOUNDLAST x
WORDCHARS a
-- out.dic
1
foo
SAID
row_refused 'options with two values' 'COMPOUNDLAST x\nCOMPOUNDEND y\n' '1\nfoo\n' << 'SAID'
prepare-dictionary: a.aff:2: COMPOUNDEND has another value than line 1: without it line 1 counts
prepare-dictionary: nothing is written. To leave out these lines: tools/prepare-dictionary --lossy a.aff a.dic out
SAID
row_lossy 'options with two values' 'COMPOUNDLAST x\nCOMPOUNDEND y\n' '1\nfoo\n' << 'SAID'
a.aff:2: COMPOUNDEND left out: line 1 counts
out.aff, out.dic: written
-- out.aff
# prepared with --lossy: COMPOUNDEND (line 1 counts)
COMPOUNDLAST x
-- out.dic
1
foo
SAID
row 'values that are none' 'COMPOUNDMIN two\nCOMPOUNDWORDMAX 2x\nSFX A X 1\nSFX A 0 s .\nCHECKCOMPOUNDPATTERN 1\nCHECKCOMPOUNDPATTERN a/ b/AB\n' '1\nfoo\n' << 'SAID'
a.aff:1: COMPOUNDMIN left out: `two` is nothing that it may have
a.aff:2: text behind the number of COMPOUNDWORDMAX dropped: `2x`
a.aff:3: the cross `X` of a class is N
a.aff:6: text behind the flag A dropped: `AB`
out.aff, out.dic: written
-- out.aff
COMPOUNDWORDMAX 2
SFX A N 1
SFX A 0 s .
CHECKCOMPOUNDPATTERN 1
CHECKCOMPOUNDPATTERN a b/A
-- out.dic
1
foo
SAID
row 'aliases that are none' 'AF 1\nAF AB\nSFX A Y 1\nSFX A 0 s/2 .\n' '3\nfoo/1\nbar/A\nbaz/1x\n' << 'SAID'
a.aff:4: flags left out that are no row of AF: `2`
a.dic:3: flags left out that are no row of AF: `A`
a.dic:4: text in a flag field that is no flag dropped: `1x`
out.aff, out.dic: written
-- out.aff
AF 1
AF AB
SFX A Y 1
SFX A 0 s/ .
-- out.dic
3
foo/1
bar/
baz/1
SAID
row 'entries without a word' 'IGNORE -\n' '3\n po:noun\nfoo\n--/A\n /A\n' << 'SAID'
a.dic:2: an entry without a word left out (2 lines, of which this is the first)
out.aff, out.dic: written
-- out.aff
IGNORE -
-- out.dic
3
foo
 /A
SAID
row 'entries in quotation marks' 'FLAG num\n' '3\n"A/S"\n"foo"\n"c/o"\n' << 'SAID'
a.dic:2: an entry in quotation marks left out, which its slash would cut: `"A/S"` (2 lines, of which this is the first)
out.aff, out.dic: written
-- out.aff
FLAG num
-- out.dic
3
"foo"
SAID
row 'no count' '\n' 'foo\nbar\n' << 'SAID'
a.dic:1: a first line 2 put in, the count
out.aff, out.dic: written
-- out.aff

-- out.dic
2
foo
bar
SAID
row 'syllables without COMPOUNDWORDMAX' 'COMPOUNDSYLLABLE 6 aou\nSYLLABLENUM klmc\n' '1\nfoo\n' << 'SAID'
a.aff:1: COMPOUNDSYLLABLE left out: it changes nothing without COMPOUNDWORDMAX
a.aff:2: SYLLABLENUM left out: it changes nothing without COMPOUNDWORDMAX
out.aff, out.dic: written
-- out.aff
-- out.dic
1
foo
SAID
row_refused 'syllables' 'COMPOUNDWORDMAX 2\nCOMPOUNDSYLLABLE 6 aou\nSYLLABLENUM klmc\n' '1\nfoo\n' << 'SAID'
prepare-dictionary: a.aff:2: COMPOUNDSYLLABLE is not judged: without it compounds of more parts than COMPOUNDWORDMAX says are marked, however few syllables they have
prepare-dictionary: a.aff:3: SYLLABLENUM is not judged: without it the syllables of inflected compounds are not counted
prepare-dictionary: nothing is written. To leave out these lines: tools/prepare-dictionary --lossy a.aff a.dic out
SAID
row_lossy 'syllables' 'COMPOUNDWORDMAX 2\nCOMPOUNDSYLLABLE 6 aou\nSYLLABLENUM klmc\n' '1\nfoo\n' << 'SAID'
a.aff:2: COMPOUNDSYLLABLE left out: compounds of more parts than COMPOUNDWORDMAX says are marked, however few syllables they have
a.aff:3: SYLLABLENUM left out: the syllables of inflected compounds are not counted
out.aff, out.dic: written
-- out.aff
# prepared with --lossy: COMPOUNDSYLLABLE (compounds of more parts than COMPOUNDWORDMAX says are marked, however few syllables they have); SYLLABLENUM (the syllables of inflected compounds are not counted)
COMPOUNDWORDMAX 2
-- out.dic
1
foo
SAID
row_refused 'two prefixes' 'COMPLEXPREFIXES\n' '1\nfoo\n' << 'SAID'
prepare-dictionary: a.aff:1: COMPLEXPREFIXES is not judged: without it words with two prefixes are marked, and some with two suffixes are accepted
prepare-dictionary: nothing is written. To leave out these lines: tools/prepare-dictionary --lossy a.aff a.dic out
SAID
row_lossy 'two prefixes' 'SET ISO8859-1\nCOMPLEXPREFIXES\n' '1\nfoo\xe9\n' << 'SAID'
a.aff:1: SET UTF-8 in place of SET ISO8859-1
a.aff:2: COMPLEXPREFIXES left out: words with two prefixes are marked, and some with two suffixes are accepted
a.dic:1: converted from ISO8859-1 to UTF-8
out.aff, out.dic: written
-- out.aff
# prepared with --lossy: COMPLEXPREFIXES (words with two prefixes are marked, and some with two suffixes are accepted)
SET UTF-8
-- out.dic
1
fooé
SAID
row_refused 'a compound rule' 'FLAG long\nCOMPOUNDRULE 2\nCOMPOUNDRULE (nn)*[a0]\nCOMPOUNDRULE (nn)(mm)\n' '1\nfoo\n' << 'SAID'
prepare-dictionary: a.aff:3: the compound rule `(nn)*[a0]` is none of hunspell(5): without it compounds of that rule alone are marked
prepare-dictionary: nothing is written. To leave out these lines: tools/prepare-dictionary --lossy a.aff a.dic out
SAID
row_lossy 'a compound rule' 'FLAG long\nCOMPOUNDRULE 2\nCOMPOUNDRULE (nn)*[a0]\nCOMPOUNDRULE (nn)(mm)\n' '1\nfoo\n' << 'SAID'
a.aff:2: COMPOUNDRULE announces 2 rows and has 1: the count mended
a.aff:3: the compound rule `(nn)*[a0]` left out: compounds of that rule alone are marked
out.aff, out.dic: written
-- out.aff
# prepared with --lossy: the compound rule `(nn)*[a0]` (compounds of that rule alone are marked)
FLAG long
COMPOUNDRULE 1
COMPOUNDRULE (nn)(mm)
-- out.dic
1
foo
SAID
row_refused 'a fault that is not mended' 'WORDCHARS\nSET ISO8859-1\nSFX A Y 1\nSFX A 0 s [\xe9\n' '1\nfoo/A\n' << 'SAID'
prepare-dictionary: a.aff:4: BadCondition cannot be mended: `SFX A 0 s [é`
SAID

# Bad input: one clear line, and nothing written.
made '' '1\nfoo\n'
prepare 'no .aff file' 1 b.aff a.dic out <<< 'prepare-dictionary: b.aff is not there'
prepare 'no .dic file' 1 a.aff b.dic out <<< 'prepare-dictionary: b.dic is not there'
mkdir "$work/in/folder"
prepare 'a folder' 1 folder a.dic out <<< 'prepare-dictionary: folder is a folder'
prepare 'a device' 1 /dev/null a.dic out <<< 'prepare-dictionary: /dev/null is not a regular file'
prepare 'an output that is not there' 1 a.aff a.dic nowhere/out <<< 'prepare-dictionary: nowhere cannot be written: No such file or directory'
prepare 'an output that is the input' 1 a.aff a.dic a <<< 'prepare-dictionary: a.aff is one of the files that are read'
ln -s a.dic "$work/in/b.dic"
prepare 'an output that is a link to the input' 1 a.aff a.dic b <<< 'prepare-dictionary: b.dic is one of the files that are read'
mkdir "$work/in/c.dic"
prepare 'an output that is a folder' 1 a.aff a.dic c <<< 'prepare-dictionary: c.dic is a folder'
made '' ''
prepare 'an empty .dic file' 1 a.aff a.dic out <<< 'prepare-dictionary: a.dic is empty'
made '' '\xef\xbb\xbf'
prepare 'a .dic file without lines' 1 a.aff a.dic out <<< 'prepare-dictionary: the .dic file has no lines'
made '' '1\nfoo\n\0\1\n'
prepare 'binary bytes' 1 a.aff a.dic out <<< 'prepare-dictionary: a.dic:3: a byte 0, which no text has'
made '' '1\nfoo\n'
printf 'TRY a\nS\0E\0T\0' > "$work/in/a.aff"
prepare 'a file of UTF-16' 1 a.aff a.dic out <<< 'prepare-dictionary: a.aff:2: a byte 0, which no text has'
made '' ''
truncate -s 67108865 "$work/in/a.dic"
prepare 'a file that is far too large' 1 a.aff a.dic out <<< 'prepare-dictionary: a.dic has more than 67,108,864 bytes, and 16,777,216 may be read'

usage='usage: prepare-dictionary [--lossy] AFF DIC OUT, or prepare-dictionary [--lossy] NAME OUT'
made '' '1\nfoo\n'
prepare 'no words' 2 <<< "$usage"
prepare 'two files' 2 a.aff a.dic <<< "$usage"
prepare 'another option' 2 --quick a.aff a.dic out <<< "$usage"
prepare 'four files' 2 a.aff a.dic out out <<< "$usage"
[[ $("$top/tools/prepare-dictionary" --help) == *'prepare-dictionary [--lossy] AFF DIC OUT'* ]] || { echo '--help tells nothing'; failed=1; }

# A folder that may not be written, by a user who has no right to.
as_other=()
[ "$(id -u)" != 0 ] || as_other=(setpriv --reuid=65534 --regid=65534 --clear-groups)
chmod 755 "$work" "$work/in"
[ "$(id -u)" = 0 ] || chmod a-w "$work/in"
said=$(cd "$work/in" && "${as_other[@]}" env "PATH=/usr/bin:$PATH" "$top/tools/prepare-dictionary" a.aff a.dic out 2>&1) && status=0 || status=$?
if [ "$status" != 1 ] || [ "$said" != 'prepare-dictionary: . cannot be written: Permission denied' ]; then
    echo "a folder that is read only: status $status, said: $said"
    failed=1
fi
chmod u+w "$work/in"

# A dictionary by its name: the folders of DICPATH come first, and a link is followed.
made 'WORDCHARS\n' '1\nfoo\n'
mkdir "$work/in/names"
ln -s ../a.aff "$work/in/names/xx_YY.aff"
ln -s ../a.dic "$work/in/names/xx_YY.dic"
export DICPATH=$work/nowhere:names
prepare 'a name' 0 xx_YY out << 'SAID'
names/xx_YY.aff:1: WORDCHARS left out: nothing stands behind it
out.aff, out.dic: written
-- out.aff
-- out.dic
1
foo
SAID
rm "$work/in/out".*
prepare 'an unknown name' 1 xx_ZZ out <<< "prepare-dictionary: no folder of $work/nowhere, names, /usr/share/hunspell, /usr/share/myspell/dicts has a dictionary xx_ZZ"
unset DICPATH

# large WHAT STATUS: as `prepare`, of files that are too large as they are. What is told of both comes without the files themselves.
large() {
    local what=$1 wanted=$2 status=0
    cat > "$work/wanted"
    (cd "$work/in" && "$top/tools/prepare-dictionary" a.aff a.dic out) > "$work/out" 2>&1 || status=$?
    if ! diff "$work/wanted" "$work/out" || [ "$status" != "$wanted" ]; then
        echo "$what: status $status, wanted $wanted"
        failed=1
    fi
}

# judged WHAT WORDS: the words of the line that the dictionary `out` marks stand on standard input.
judged() {
    printf '%s\n' "$2" > "$work/in/text"
    { "$top/affedit" check "$work/in/out.aff" "$work/in/out.dic" "$work/in/text" || true; } | head -n -1 | cut -d ' ' -f 4 | xargs > "$work/out"
    diff - "$work/out" || { echo "$1: other words are marked"; failed=1; }
}
long=$(head -c 100000 /dev/zero | tr '\0' x)
flags=$(head -c 100000 /dev/zero | tr '\0' Z)

made '' ''
{ echo 1; letters 170 | sed "s/\$/$long/"; } > "$work/in/a.dic"
large 'a file that stays too large' 1 << 'SAID'
prepare-dictionary: the .dic file has 17,000,574 bytes in UTF-8, and 16,777,216 may be read
SAID
[ ! -e "$work/in/out.dic" ] || { echo 'a file that stays too large: written'; failed=1; }

made '' '1\nfoo/A\n'
{ letters 170 | sed "s/^/# $long/"; printf 'SFX A Y 1\nSFX A 0 s .\n'; } > "$work/in/a.aff"
large 'comments' 0 << 'SAID'
a.aff:1: lines that are passed over left out: 170
out.aff, out.dic: written
SAID
judged 'comments' 'foo foos foot' <<< 'foot'
made '' ''

{ echo 1; letters 170 | sed "s/.*/foo& po:$long/"; } > "$work/in/a.dic"
large 'morphology' 0 << 'SAID'
a.dic:2: fields of morphology left out, to make the file small enough (170 lines, of which this is the first)
out.aff, out.dic: written
SAID
judged 'morphology' 'foob foobha foobhb' <<< 'foobhb'

{ echo 1; letters 90 | sed "s/\$/$long/; p"; echo foo; } > "$work/in/a.dic"
large 'equal entries' 0 << 'SAID'
a.dic:3: an entry left out that stands above, to make the file small enough (90 lines, of which this is the first)
out.aff, out.dic: written
SAID
judged 'equal entries' 'foo bar' <<< 'bar'

printf 'FLAG num\nNOSUGGEST 60000\nSFX 60001 Y 1\nSFX 60001 0 s .\n' > "$work/in/a.aff"
{ echo 1; letters 90 | sed "s/\$/$long/; p; s/\$/s/"; printf 'foo\nfoos\nfoosy\nfoosys\nbar/60001\nbary\nbaz\nbaze\n'; } > "$work/in/a.dic"
large 'entries as forms' 0 << 'SAID'
a.aff:10: 3 classes put in at the end, for forms of entries
a.dic:3: an entry written as a form of another, to make the file small enough (93 lines, of which this is the first)
out.aff, out.dic: written
SAID
judged 'entries as forms' 'foo foos foosy foosys fooy foosyy bar bars bary barys baz baze bazs' <<< 'fooy foosyy barys bazs'

printf 'SFX Z Y 1\nSFX Z 0 s .\nSFX Y Y 1\nSFX Y 0 t/Z .\n' > "$work/in/a.aff"
{ echo 1; letters 180 | sed "s,.*,foo&/$flags,"; printf 'bar/YZ\nbaz/Z\nqux\n'; } > "$work/in/a.dic"
large 'flags as numbers' 0 << 'SAID'
a.aff:8: a table AF of 3 rows put in at the end
a.dic:2: flags of entries written as numbers of rows of AF, to make the file small enough
out.aff, out.dic: written
SAID
judged 'flags as numbers' 'foob foobs foobt bar bars bart barts bazs bazt qux quxs' <<< 'foobt bazt quxs'

# The names of options are those of the table in docs/DICTIONARIES.md.
awk -F '|' '/^## / { inside = /Which options/ } inside && /^\| [A-Z]/ { print $2 }' "$top/docs/DICTIONARIES.md" | LC_ALL=C grep -o '[A-Z][A-Z_]*' | LC_ALL=C sort > "$work/wanted"
PYTHONPATH=$top/tools python3 -B -c 'import dictionary_grammar as g; print(*sorted(g.READ | g.PASSED_OVER), sep="\n")' > "$work/out"
diff "$work/wanted" "$work/out" || { echo 'docs/DICTIONARIES.md has other names of options'; failed=1; }

# A loss is promised only if --lossy has no fault: here there is one entry too many.
made 'COMPLEXPREFIXES\n' ''
{ echo 1; letters 1000001; } > "$work/in/a.dic"
prepare 'a loss, and a fault' 1 a.aff a.dic out << 'SAID'
prepare-dictionary: a.dic:1000002: TooMany cannot be mended: `baaaaab`
SAID
exit "$failed"
