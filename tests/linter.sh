#!/usr/bin/env bash
# What tools/lint-dictionary says of small dictionaries, and what the commands do that it gives. Needs Python 3, and is skipped without.
# Prints what differs; the status is 0 if nothing does.
set -euo pipefail
top=$(cd "$(dirname "$0")/.." && pwd)
# shellcheck source=tests/dictionary_files.bash
. "$top/tests/dictionary_files.bash"
begin
failed=0

# linted WHAT [OWN]: what the linter tells of a.aff and a.dic stands on standard input, without its own folder. The status is 1, or WANTED.
linted() {
    local what=$1 status=0
    shift
    (cd "$work/in" && "$top/tools/lint-dictionary" a.aff a.dic "$@") > "$work/out" || status=$?
    sed -i "s|$top/||" "$work/out"
    diff - "$work/out" || { echo "$what: the linter tells otherwise"; failed=1; }
    [ "$status" = "${WANTED-1}" ] || { echo "$what: the linter: status $status, wanted ${WANTED-1}"; failed=1; }
}
# copied WHAT SAID AFF DIC [OWN]: the commands that the linter gave do what they promise: `check` of these files then says so.
copied() {
    local what=$1 wanted=$2 said
    shift 2
    sed -n 's/^    [a-z ]* by:  //p' "$work/out" | sed "s|^tools/|$top/tools/|" > "$work/commands"
    (cd "$work/in" && bash -e "$work/commands") > "$work/said" 2>&1 || { echo "$what: a command fails: $(cat "$work/said")"; failed=1; }
    said=$(cd "$work/in" && AFFEDIT_QUIET=1 "$top/affedit" check "$1" "$2" /dev/null ${3:+--own "$3"}) || true
    [ "$said" = "$wanted" ] || { echo "$what: after the commands: $said"; failed=1; }
}

made 'WORDCHAR\xf6 x\nSET ISO8859-1\n' '1\ncaf\xe9\n'
linted 'another encoding' << 'SAID'
a.aff:1: WORDCHAR\xf6 is no option of hunspell(5), and passed over: 1 line begins so
a.aff:1: NotUtf8
    the line:  WORDCHAR\xf6 x
    mend it by:  tools/prepare-dictionary a.aff a.dic a-prepared
    this changes:
    a.aff:1: converted from ISO8859-1 to UTF-8
    a.aff:2: SET UTF-8 in place of SET ISO8859-1
    a.dic:1: converted from ISO8859-1 to UTF-8
SAID
copied 'another encoding' '0 of 0' a-prepared.aff a-prepared.dic
made 'SFX A Y 3\nSFX A 0 s .\nCOMPLEXPREFIXES\n' '1\nfoo/A\n'
linted 'a loss' << 'SAID'
a.aff:1: TableShort
    the line:  SFX A Y 3
    mend it by:  tools/prepare-dictionary --lossy a.aff a.dic a-prepared
    this changes:
    a.aff:1: a class announces 3 rules and has 1: the count mended
    a.aff:3: COMPLEXPREFIXES left out: words with two prefixes are marked, and some with two suffixes are accepted
SAID
copied 'a loss' '0 of 0' a-prepared.aff a-prepared.dic
made 'SET ISO8859-1\nSFX A Y 1\nSFX A 0 s [a\tpo:\xf6\n' '1\ncaf\xe9\n'
linted 'an open bracket' << 'SAID'
a.aff:1: OtherEncoding
    the line:  SET ISO8859-1
    prepare-dictionary refuses it:
    a.aff:3: BadCondition cannot be mended: `SFX A 0 s [a	po:ö`
    close its bracket by:  LC_ALL=C sed -i '3s/[^ \t\r]\+/&]/5' a.aff
SAID
copied 'an open bracket' 'aff 1 OtherEncoding' a.aff a.dic
(cd "$work/in" && "$top/tools/prepare-dictionary" a.aff a.dic out > /dev/null) || { echo 'an open bracket: still refused'; failed=1; }
made 'SFX A\\B 0 s .\nSFX A\\B 0 t .\r\n' '1\nfoo\n'
sed -i '1iFLAG long' "$work/in/a.aff"
sed -i 's/A.B/A\\/' "$work/in/a.aff"
# A command has a backslash twice.
linted 'no header' << 'SAID'
a.aff:2: BadNumber
    the line:  SFX A\ 0 s .
    prepare-dictionary refuses it:
    a.aff:2: BadNumber cannot be mended: `SFX A\ 0 s .`
    put the header of its class above it by:  LC_ALL=C sed -i '2i SFX A\\ Y 2' a.aff
    With SFX A\ N these affixes do not go with those of the other side.
SAID
copied 'no header' '0 of 0' a.aff a.dic
made 'COMPOUNDMIN 99999999999999999999\n' '1\nfoo\n'
linted 'a number that is too high' << 'SAID'
a.aff:1: BadNumber
    the line:  COMPOUNDMIN 99999999999999999999
    prepare-dictionary refuses it:
    a.aff:1: BadNumber cannot be mended: `COMPOUNDMIN 99999999999999999999`
    leave it out by:  LC_ALL=C sed -i 1d a.aff
SAID
copied 'a number that is too high' '0 of 0' a.aff a.dic
made '' ''
{ echo 1; letters 1000001; } > "$work/in/a.dic"
linted 'many entries' << 'SAID'
a.dic:1000002: TooMany
    the line:  baaaaab
    prepare-dictionary refuses it:
    a.dic:1000002: TooMany cannot be mended: `baaaaab`
    make two dictionaries of it by:  head -n 1000001 a.dic > a-1.dic && { echo 1; tail -n +1000002 a.dic; } > a-2.dic && cp a.aff a-1.aff && cp a.aff a-2.aff
    check texts by both with:  tools/affedit-check -d ./a-1,./a-2 TEXT
SAID
copied 'many entries' '0 of 0' a-1.aff a-1.dic
[ "$(xargs < "$work/in/a-2.dic")" = '1 baaaaab' ] || { echo 'many entries: the second part is another'; failed=1; }
made '' '1\n'
letters 170 | sed "s/.*/foo& po:$(head -c 100000 /dev/zero | tr '\0' x)/" >> "$work/in/a.dic"
linted 'a large file' << 'SAID'
a.aff, a.dic: limit 16777216
    mend it by:  tools/prepare-dictionary a.aff a.dic a-prepared
    this changes:
    a.dic:2: fields of morphology left out, to make the file small enough (170 lines, of which this is the first)
SAID
copied 'a large file' '0 of 0' a-prepared.aff a-prepared.dic
made 'AF 65001\n' '0\n'
{ letters 65001 | sed 's/^/AF /'; } >> "$work/in/a.aff"
linted 'many rows' << 'SAID'
a.aff:1: TooMany
    the line:  AF 65001
    prepare-dictionary refuses it:
    a.aff:1: TooMany cannot be mended: `AF 65001`
    65,000 rows of a table and 200,000 rules of all classes are the most: leave out rows, and lower the number
SAID
made '' '1\nfoo\n'
printf 'foo\n*\n' > "$work/in/own"
linted 'a bad item' own << 'SAID'
own:2: EmptyWord
    the line:  *
    leave it out by:  LC_ALL=C sed -i 2d own
SAID
copied 'a bad item' '0 of 0' a.aff a.dic own
printf 'foo\nb\xf6\n' > "$work/in/own"
linted 'a list in Latin-1' own << 'SAID'
own:2: NotUtf8
    the line:  b\xf6
    mend it by:  iconv -f ISO-8859-1 -t UTF-8 own > own-utf8
SAID
copied 'a list in Latin-1' '0 of 0' a.aff a.dic own-utf8
letters 10002 > "$work/in/own"
linted 'many items' own << 'SAID'
own:10001: TooMany
    the line:  baaab
    keep what is above it by:  LC_ALL=C sed -i 10000q own
SAID
copied 'many items' '0 of 0' a.aff a.dic own
# What en_US.aff says of characters.
made "WORDCHARS 0123456789’\nICONV 1\nICONV ’ '\n" '2\nfoo\nin\n'
printf '%s\n' 'foo bar' $'\xef\xbb\xbfHudn.' 'baz ' '' '*in side' "rock'n'roll" "dogs'" "rock’n" 2nd $'tab\t' '*in\/out' '3.14/foo' naïve $'ⓐ \r' > "$work/in/own"
WANTED=0 linted 'items that no text has' own << 'SAID'
own:1: no text can match foo bar: a space is no word character
own:2: no text can match ﻿Hudn.: U+FEFF is no word character
own:5: no text can match *in side: a space is no word character
own:7: no text can match dogs': an apostrophe is part of a word only between two word characters
own:8: no text can match rock’n: ICONV replaces `’` in each text
own:10: no text can match tab	: a tab is no word character
own:11: no text can match *in\/out: `/` is no word character
own:12: no text can match 3.14/foo: a dot is no word character
a.aff, a.dic, own: read
SAID
made 'WORDCHARS .-\n' '1\nfoo\n'
printf '%s\n' Hudn Hudn. '*Hudn.' "'tis" 'foo.bar' 'foo bar.' > "$work/in/own"
WANTED=0 linted 'items with dots' own << 'SAID'
own:6: no text can match foo bar.: a space is no word character
a.aff, a.dic, own: read
SAID
made 'SFX A Y 1\nSFX A + s .\n' '1\nfoo/A\n'
printf '%s\n' 'bar-/foo' 'bar+/foo' "dogs'/foo" "dogs'" > "$work/in/own"
WANTED=0 linted 'items with models' own << 'SAID'
own:1: no text can match bar-/foo: `-` is no word character
own:4: no text can match dogs': an apostrophe is part of a word only between two word characters
a.aff, a.dic, own: read
SAID
"$top/tests/linter_items.py" 40 || failed=1
exit "$failed"
