#!/usr/bin/env bash
# What the launcher `affedit` says to people after a run, and that nothing stands between the program and its input, its output and its signals.
# tests/building.sh tries where it gets its program from. Prints what went wrong; the status is 0 if nothing did.
# shellcheck disable=SC2015,SC2016
set -euo pipefail
unset AFFEDIT_NO_BUILD AFFEDIT_QUIET
top=$(cd "$(dirname "$0")/.." && pwd)
# Where another user may look in.
work=$(mktemp -d -p /tmp)
trap 'chmod -R u+w "$work"; rm -rf "$work"' EXIT
chmod 755 "$work"
failed=0

# A user who has fewer rights.
as_other=()
if [ "$(id -u)" = 0 ]; then
    as_other=(setpriv --reuid=65534 --regid=65534 --clear-groups)
fi

# ---- what ended a run, said to people: by the program itself, in a folder without the part that builds

real=$("$top/tests/program") || { echo 'no row of what ended a run was run'; exit 1; }
mkdir -p "$work/real/out" "$work/real/tools/launcher" "$work/in/folder"
cp "$top/affedit" "$work/real/affedit"
cp "$top"/tools/launcher/{explaining.bash,rewriting.bash,causes,commands,statuses} "$work/real/tools/launcher"
cp "$real" "$work/real/out/affedit"
affedit=$work/real/affedit
cd "$work/in"
chmod 755 "$work/in"
printf 'SET UTF-8\nSFX A Y 1\nSFX A 0 s .\n' > a.aff
printf '2\nhello\nword/A\n' > a.dic
printf 'hello wrods\n' > text
printf 'hello\ncaf\xe9\n' > latin
printf 'wrods\n' > own
printf 'SET UTF-8\nTRY a\nREP 3\nREP a b\n' > short.aff
head -c 16777217 /dev/zero | tr '\0' '\n' > large
{ printf '\xef\xbb\xbfhello\r\n'; head -c 65536 /dev/zero | tr '\0' a; printf '\r\n'; head -c 65537 /dev/zero | tr '\0' a; printf '\r\n'; } > long
seq 20001 > many
printf '1 ins 1 wrods\n1 settle\n1 show\n\n16\n' > script
input=/dev/null

# row WHAT STATUS OUTPUT WORD..: what the program prints and its status, and on standard error what stands on standard input, with the launcher's
# name without its folder.
row() {
    local what=$1 wanted=$2 output=$3 status=0
    shift 3
    cat > "$work/wanted"
    "$affedit" "$@" < "$input" > "$work/out" 2> "$work/said" || status=$?
    sed -i "s|$work/real/||" "$work/said"
    if [ "$status" != "$wanted" ] || [ "$(cat "$work/out")" != "$output" ] || ! diff "$work/wanted" "$work/said"; then
        echo "$what: status $status, wanted $wanted; printed: $(head -c 300 "$work/out")"
        failed=1
    fi
}

row 'marks' 1 $'1 6 11 wrods\n1 of 2' check a.aff a.dic text < /dev/null
row 'no marks' 0 '0 of 2' check a.aff a.dic text --workers 2 --own own < /dev/null
row 'a command with a wrong letter' 2 'affedit: words' chek a.aff a.dic text << 'SAID'
affedit: `chek` is no command; the nearest is `check`
affedit: the line to copy: affedit check a.aff a.dic text
affedit: the form is: affedit check AFF DIC FILE [--workers N] [--own OWN]
affedit: `affedit --help` says what they do
SAID
# words WHAT SAID WORD..: of a command line that is none of the forms, the first line that is said.
words() {
    local what=$1 wanted=$2 status=0
    shift 2
    "$affedit" "$@" < /dev/null > "$work/out" 2> "$work/said" || status=$?
    if [ "$status" != 2 ] || [ "$(cat "$work/out")" != 'affedit: words' ] || [ "$(head -n 1 "$work/said")" != "affedit: $wanted" ]; then
        echo "$what: status $status, said: $(head -n 1 "$work/said")"
        failed=1
    fi
}
words 'exchanged letters' '`fomrs` is no command; the nearest is `forms`' fomrs a.aff a.dic
words 'capitals' '`CHECK` is no command; the nearest is `check`' CHECK a.aff a.dic text
words 'another word' '`spell` is no command' spell text
words 'an option of another program' '`-d` is no command' -d en_US text
words 'an empty word' 'there is no command' ''
words 'a file in the place of the command' '`a.aff` is no command, but a file; a command stands before the files' a.aff a.dic text
words 'no text' '`check` takes 3 names of files, and the words behind it are 2' check a.aff a.dic
words 'two texts' '`many` is a word too many' check a.aff a.dic text many
words 'help behind a command' '`--help` stands alone: `affedit --help`' check --help
words 'a misspelled option' '`--worker` is no option; the nearest is `--workers`' check a.aff a.dic text --worker 2
words 'another option' '`--verbose` is no option' check a.aff a.dic text --verbose
words 'workers without a number' '`--workers` has no number behind it' check a.aff a.dic text --workers
words 'too many workers' '`17` is no number of workers: 0 to 16, in one or two digits' check a.aff a.dic text --workers 17
words 'three digits' '`004` is no number of workers: 0 to 16, in one or two digits' check a.aff a.dic text --workers 004
words 'workers twice' '`--workers` stands there twice' check a.aff a.dic text --workers 1 --workers 2
words 'too many workers of edit' '`17` is no number of workers: 0 to 16, in one or two digits' edit a.aff a.dic --workers 17
words 'no personal list' '`--own` has no name of a file behind it' check a.aff a.dic text --own
words 'an option of forms' '`--own` is a word too many: `forms` takes two names and nothing else' forms a.aff a.dic --own own
words 'an option of pipe' '`--workers` is a word too many: `pipe` takes two names and nothing else' pipe a.aff a.dic --workers 1
words 'no script' '`team` takes 3 names of files, and the words behind it are 2' team a.aff a.dic
words 'two scripts' '`many` is a word too many' team a.aff a.dic script many
words 'a misspelled option of team' '`--worker` is no option; the nearest is `--workers`' team a.aff a.dic script --worker 2
words 'a misspelled option that team has not got' '`--owm` is no option' team a.aff a.dic script --owm own
words 'too many workers of team' '`17` is no number of workers: 0 to 16, in one or two digits' team a.aff a.dic script --workers 17
words 'a personal list of team' '`--own` is a word too many: `team` takes no personal list' team a.aff a.dic script --own own
words 'a list of team in one word' '`--own=own` is a word too many: `team` takes no personal list' team a.aff a.dic script --own=own
words 'a list behind workers' '`--own` is a word too many: `team` takes no personal list' team a.aff a.dic script --workers 1 --own own
words 'one number' '`make` takes two numbers, and the words behind it are 1' make 7
words 'a start that is too large' '`18446744073709551616` is no START: a decimal number below 2^64' make 18446744073709551616 4
words 'a size of nothing' '`0` is no SIZE: a decimal number from 1 to 50000' make 7 0
words 'a size that is too large' '`50001` is no SIZE: a decimal number from 1 to 50000' make 7 50001
words 'a name that is not UTF-8' "word 3 of the command line is not UTF-8: \$'\\351.dic'" check a.aff $'\xe9.dic' text
words 'a word for a terminal' '`?[31m?` is no command' $'\e[31m\n'

# What is a form is taken, and then nothing is said of words.
for form in "make 18446744073709551615 0001" "check a.aff a.dic text --workers 16" "check a.aff a.dic text --workers 00 --own own" \
    "edit a.aff a.dic --workers 16 --own own" "forms a.aff a.dic" "pipe a.aff a.dic" "team a.aff a.dic script" \
    "team a.aff a.dic script --workers 16"; do
    # shellcheck disable=SC2086
    "$affedit" $form < /dev/null > "$work/out" 2> "$work/said" && status=0 || status=$?
    [ "$status" -le 1 ] && [ ! -s "$work/said" ] || { echo "$form: status $status, said: $(cat "$work/said")"; failed=1; }
done

# same FORM WORD..: these words are put into the order of the form, and nothing is said of that.
same() {
    local form=$1 status=0 wanted=0
    shift
    # shellcheck disable=SC2086
    "$affedit" $form < text > "$work/wanted" 2> /dev/null || wanted=$?
    "$affedit" "$@" < text > "$work/out" 2> "$work/said" || status=$?
    [ "$status" = "$wanted" ] && [ ! -s "$work/said" ] && diff "$work/wanted" "$work/out" || { echo "$*: status $status, wanted $wanted"; failed=1; }
}
same 'check a.aff a.dic text --own own' check a.aff a.dic text --own=own
same 'check a.aff a.dic text --own own' check --own own a.aff a.dic text
same 'check a.aff a.dic text --own own' check a.aff --own=own a.dic text
same 'check a.aff a.dic text --workers 2 --own own' check a.aff a.dic text --own own --workers 2
same 'check a.aff a.dic text --workers 2 --own own' check --own=own a.aff a.dic --workers=2 text
same 'check a.aff a.dic text --workers 2' check a.aff a.dic text --workers=2
same 'check a.aff a.dic /dev/stdin' check a.aff a.dic -
same 'check a.aff a.dic /dev/stdin --workers 1' check --workers 1 a.aff a.dic -
same 'edit a.aff a.dic --workers 2 --own own' edit --own=own --workers=2 a.aff a.dic
same 'team a.aff a.dic script --workers 2' team --workers=2 a.aff a.dic script
[ "$("$affedit" team a.aff a.dic - < script)" = "$("$affedit" team a.aff a.dic script)" ] || { echo 'a script by standard input in short'; failed=1; }
# The words of a form stay as they are, whatever files are named like.
cp own ./--own
cp text ./--workers
cp a.aff ./-
for form in 'check a.aff a.dic --workers' 'check a.aff a.dic --own' 'check - a.dic --own --workers 2' 'check a.aff a.dic -' \
    'check a.aff a.dic --workers --own own'; do
    # shellcheck disable=SC2086
    "$real" $form > "$work/wanted" && wanted=0 || wanted=$?
    # shellcheck disable=SC2086
    "$affedit" $form < text > "$work/out" 2> "$work/said" && status=0 || status=$?
    [ "$status" = "$wanted" ] && [ "$status" -le 1 ] && [ ! -s "$work/said" ] && cmp "$work/wanted" "$work/out" || { echo "$form: status $status"; failed=1; }
done
# What may mean two things is left to people.
row 'an option that is a file too' 2 'affedit: words' check a.aff a.dic --own own text << 'SAID'
affedit: `own` is a word too many
affedit: the line to copy: affedit check a.aff a.dic text --own own
affedit: the form is: affedit check AFF DIC FILE [--workers N] [--own OWN]
affedit: `affedit --help` says what they do
SAID
rm ./--own ./--workers ./-
row 'an option twice' 2 'affedit: words' check a.aff a.dic text --workers 1 --own own --workers=2 << 'SAID'
affedit: `--workers=2` stands too late: `--own OWN` is last
affedit: the line to copy: affedit check a.aff a.dic text --workers 2 --own own
affedit: the form is: affedit check AFF DIC FILE [--workers N] [--own OWN]
affedit: `affedit --help` says what they do
SAID
row 'a misspelled option to copy' 2 'affedit: words' chekc a.aff a.dic text --worker=2 << 'SAID'
affedit: `chekc` is no command; the nearest is `check`
affedit: the line to copy: affedit check a.aff a.dic text --workers 2
affedit: the form is: affedit check AFF DIC FILE [--workers N] [--own OWN]
affedit: `affedit --help` says what they do
SAID
row 'no command' 2 'affedit: words' text a.aff a.dic << 'SAID'
affedit: `text` is no command, but a file; a command stands before the files
affedit: the line to copy: affedit check a.aff a.dic text
affedit: the form is: affedit check AFF DIC FILE [--workers N] [--own OWN]
affedit: `affedit --help` says what they do
SAID
row 'a value that is none' 2 'affedit: words' check --workers=17 a.aff a.dic text << 'SAID'
affedit: `17` is no number of workers: 0 to 16, in one or two digits
affedit: the form is: affedit check AFF DIC FILE [--workers N] [--own OWN]
affedit: `affedit --help` says what they do
SAID

row 'a name that is not there' 5 missing check a.aff b.dic text << 'SAID'
affedit: there is no file `b.dic`
SAID
row 'standard input in the place of a dictionary' 5 missing check - a.dic text << 'SAID'
affedit: there is no file `-`
affedit: standard input is the file /dev/stdin
SAID
row 'no personal list' 5 missing edit a.aff a.dic --own none << 'SAID'
affedit: there is no file `none`
SAID
ln -s none link
row 'a link to nothing' 5 missing forms link a.dic << 'SAID'
affedit: `link` is a link to a file that is not there
SAID
row 'a folder' 5 files check a.aff a.dic folder << 'SAID'
affedit: `folder` is a folder, and no file
SAID
row 'a large file' 8 'limit 16777216' edit a.aff large << 'SAID'
affedit: `large` has 16777217 bytes, and 16777216 are the most
SAID
row 'a long line' 8 'limit 65536' check a.aff a.dic long << 'SAID'
long:3: the line has 65537 bytes, and 65536 are the most
affedit: affedit-check has no such limit: affedit-check -d ./a long
SAID
row 'many lines' 8 'limit 20000' check a.aff a.dic many << 'SAID'
affedit: `many` has 20001 lines, and 20000 are the most
affedit: affedit-check has no such limit: affedit-check -d ./a many
SAID
cp many ./-many
row 'many lines, own words, and a name like an option' 8 'limit 20000' check "$work/in/a.aff" "$work/in/a.dic" -many --own own << SAID
affedit: \`-many\` has 20001 lines, and 20000 are the most
affedit: affedit-check has no such limit: affedit-check -d $work/in/a -p own ./-many
SAID
row 'many lines, and files of two names' 8 'limit 20000' check a.aff ./a.dic many << 'SAID'
affedit: `many` has 20001 lines, and 20000 are the most
affedit: affedit-check has no such limit: affedit-check -d ./NAME FILE, with the dictionary in ./NAME.aff and ./NAME.dic
SAID
truncate -s 67108865 huge
row 'a huge text' 8 'limit 67108864' check a.aff a.dic huge << 'SAID'
affedit: `huge` has 67108865 bytes, and 67108864 are the most
affedit: affedit-check has no such limit: affedit-check -d ./a huge
SAID
rm huge
input=many
row 'many lines of standard input' 8 'limit 20000' check a.aff a.dic - << 'SAID'
affedit: `/dev/stdin` has 20001 lines, and 20000 are the most
affedit: affedit-check has no such limit: affedit-check -d ./a -
SAID
input=/dev/null
printf 'hello\nhello \xff\xfe \0 hello\0\n' > binary
row 'a binary file' 4 'doc 2' check a.aff a.dic binary << 'SAID'
binary:2: the line is not UTF-8
affedit: `binary` is a binary file, and no text: line 2 has a byte 0
SAID
printf '1 show\n1 ins 1 \xff\0\n' > script
row 'a binary script' 4 'script 2' team a.aff a.dic script << 'SAID'
script:2: the line is not UTF-8
affedit: `script` is a binary file, and no text: line 2 has a byte 0
SAID
row 'a binary dictionary' 3 'aff 2 NotUtf8' check binary a.dic text << 'SAID'
binary:2: the line is not UTF-8 (NotUtf8)
affedit: `binary` is a binary file, and no text: line 2 has a byte 0
SAID
printf '\xff\xfeh\0i\0\n\0' > 'two bytes'
row 'a text in UTF-16' 4 'doc 1' check a.aff a.dic 'two bytes' << 'SAID'
two bytes:1: the line is not UTF-8
affedit: `two bytes` is UTF-16. It becomes UTF-8 by: iconv -f UTF-16 -t UTF-8 two\ bytes > two\ bytes-utf8
SAID
eval "$(sed -n 's/.*UTF-8 by: //p' "$work/said")"
[ "$(cat 'two bytes-utf8')" = hi ] || { echo 'the command for a text in UTF-16 does not help'; failed=1; }
# copied WHAT STATUS OUTPUT: the line to copy that was said last is run, and ends so.
copied() {
    local status=0 said
    said=$(eval "$work/real/$(sed -n 's/^affedit: the line to copy: //p' "$work/said")" 2> /dev/null) || status=$?
    [ "$status" = "$2" ] && [ "$said" = "$3" ] || { echo "$1, copied: status $status, printed: $said"; failed=1; }
}
row 'the text before the dictionary' 3 'dic 1 BadCount' check text a.aff a.dic --own=own << 'SAID'
a.aff:1: the first line does not begin with the number of entries (BadCount)
affedit: `text` stands before the files of the dictionary, and has to stand after them
affedit: the line to copy: affedit check a.aff a.dic text --own own
SAID
copied 'the text before the dictionary' 0 '0 of 2'
cp a.aff 'rules 1'
cp a.dic words
row 'the same by names that say nothing' 3 'dic 1 BadCount' check text 'rules 1' words << 'SAID'
rules 1:1: the first line does not begin with the number of entries (BadCount)
affedit: `text` stands before the files of the dictionary, and has to stand after them
affedit: the line to copy: affedit check rules\ 1 words text
SAID
copied 'the same by names that say nothing' 1 $'1 6 11 wrods\n1 of 2'
row 'the text in the midst' 3 'dic 1 BadCount' check a.aff text a.dic << 'SAID'
text:1: the first line does not begin with the number of entries (BadCount)
affedit: the .aff file stands first, then the .dic file: `a.aff`, then `a.dic`
affedit: the line to copy: affedit check a.aff a.dic text
SAID
copied 'the text in the midst' 1 $'1 6 11 wrods\n1 of 2'
input=text
row 'standard input before the dictionary' 3 'dic 1 BadCount' check /dev/stdin a.aff a.dic << 'SAID'
a.aff:1: the first line does not begin with the number of entries (BadCount)
affedit: `/dev/stdin` stands before the files of the dictionary, and has to stand after them
affedit: the line to copy: affedit check a.aff a.dic /dev/stdin
SAID
input=/dev/null
row 'exchanged files of edit' 3 'dic 1 BadCount' edit a.dic a.aff --workers 1 << 'SAID'
a.aff:1: the first line does not begin with the number of entries (BadCount)
affedit: the .aff file stands first, then the .dic file: `a.aff`, then `a.dic`
affedit: the line to copy: affedit edit a.aff a.dic --workers 1
SAID
# A .dic file without a count is one all the same, in its place.
printf 'hello\n' > none.dic
row 'no count' 3 'dic 1 BadCount' check a.aff none.dic text << 'SAID'
none.dic:1: the first line does not begin with the number of entries (BadCount)
affedit: to mend both files, or to see why not: affedit-prepare-dictionary a.aff none.dic a-prepared
SAID
echo 1 > number
row 'no count, and a text that begins with a number' 3 'dic 1 BadCount' check a.aff none.dic number << 'SAID'
none.dic:1: the first line does not begin with the number of entries (BadCount)
affedit: to mend both files, or to see why not: affedit-prepare-dictionary a.aff none.dic a-prepared
SAID
# What is never mended is not promised.
printf 'SFX A Y 200001\n' > rules.aff
row 'too many rules' 3 'aff 1 TooMany' check rules.aff a.dic text << 'SAID'
rules.aff:1: more rows or rules are announced than are allowed (TooMany)
affedit: to see what helps: affedit-lint-dictionary rules.aff a.dic
SAID
row 'a bad item of a personal list' 3 'own 1 EmptyWord' check a.aff a.dic text --own <(echo '*') << 'SAID'
affedit: a file of the dictionary, or the personal list, has a fault: the last line has the file, the line and the cause
SAID
echo '*' > star
row 'a bad item of a personal list' 3 'own 1 EmptyWord' check a.aff a.dic text --own star << 'SAID'
star:1: the word is empty, or the model behind the slash is (EmptyWord)
affedit: to see what helps: affedit-lint-dictionary a.aff a.dic star
SAID
row 'a text in Latin-1' 4 'doc 2' check a.aff a.dic latin << 'SAID'
latin:2: the line is not UTF-8
affedit: a text in Latin-1 becomes UTF-8 by: iconv -f ISO-8859-1 -t UTF-8
SAID
row 'exchanged files' 3 'dic 1 BadCount' check a.dic a.aff text << 'SAID'
a.aff:1: the first line does not begin with the number of entries (BadCount)
affedit: the .aff file stands first, then the .dic file: `a.aff`, then `a.dic`
affedit: the line to copy: affedit check a.aff a.dic text
SAID
copied 'exchanged files' 1 $'1 6 11 wrods\n1 of 2'
row 'a short table' 3 'aff 3 TableShort' check short.aff a.dic none << 'SAID'
short.aff:3: the table announces more rows than it has (TableShort)
affedit: to mend both files, or to see why not: affedit-prepare-dictionary short.aff a.dic short-prepared
SAID
row 'the same of edit' 3 'aff 3 TableShort' edit short.aff a.dic << 'SAID'
short.aff:3: the table announces more rows than it has (TableShort)
affedit: to mend both files, or to see why not: affedit-prepare-dictionary short.aff a.dic short-prepared
SAID
# scripted WHAT STATUS OUTPUT SCRIPT: the same of `team` by this script, a format of printf.
scripted() {
    # shellcheck disable=SC2059
    printf "$4" > script
    row "$1" "$2" "$3" team a.aff a.dic script
}
scripted 'sessions' 0 $'session 1\nok 1\nok 1\ntext 1 dict 0\n1 0 5 wrods\n.\nsession 16\ntotal text 1 dict 0' \
    '1 ins 1 wrods\n1 settle\n1 show\n\n16\n' < /dev/null
scripted 'a pair with a fault' 0 $'session 2\nno aff 3 TableShort\ntotal text 0 dict 0' '2 load short.aff none\n' < /dev/null
row 'no script' 5 missing team a.aff a.dic none << 'SAID'
affedit: there is no file `none`
SAID
row 'a folder as a script' 5 files team a.aff a.dic folder --workers 2 << 'SAID'
affedit: `folder` is a folder, and no file
SAID
row 'a large script' 8 'limit 16777216' team a.aff a.dic large << 'SAID'
affedit: `large` has 16777217 bytes, and 16777216 are the most
SAID
row 'a short table of team' 3 'aff 3 TableShort' team short.aff a.dic none << 'SAID'
short.aff:3: the table announces more rows than it has (TableShort)
affedit: to mend both files, or to see why not: affedit-prepare-dictionary short.aff a.dic short-prepared
SAID
scripted 'a session that may not be' 4 'script 2' '1 show\n17 show\n' << 'SAID'
script:2: `17` is no number of a session: 1 to 16, in one or two digits
affedit: a line of a script is blank, or has the number of a session, one space, and a line of the input of `edit`
SAID
scripted 'no session' 4 'script 1' '\xef\xbb\xbfshow\r\n1 show\n' << 'SAID'
script:1: `show` is no number of a session: 1 to 16, in one or two digits
affedit: a line of a script is blank, or has the number of a session, one space, and a line of the input of `edit`
SAID
scripted 'a tab behind a session' 4 'script 3' '\n16 show\n1\tshow\n' << 'SAID'
script:3: `1?show` is no number of a session: 1 to 16, in one or two digits
affedit: a line of a script is blank, or has the number of a session, one space, and a line of the input of `edit`
SAID
scripted 'a space before a session' 4 'script 3' ' \t\n01\n 1 show\n' << 'SAID'
script:3: the line begins with a space, in place of the number of a session
affedit: a line of a script is blank, or has the number of a session, one space, and a line of the input of `edit`
SAID
# The last two are past the characters, and half of a pair of UTF-16.
for bytes in '\xe9' '\xe2\x82' '\xc0\x80' '\xf4\x90\x80\x80' '\xed\xa0\x80'; do
    scripted 'a script that is not UTF-8' 4 'script 2' "1 ins 1 \xf4\x8f\xbf\xbf\xed\x9f\xbf\n2 ins 1 $bytes\n0\n" << 'SAID'
script:2: the line is not UTF-8
affedit: a text in Latin-1 becomes UTF-8 by: iconv -f ISO-8859-1 -t UTF-8
SAID
done
{ printf '1 load a b\n12 '; head -c 131073 /dev/zero | tr '\0' a; printf '\r\n'; } > script
row 'a long line of a script' 8 'limit 131072' team a.aff a.dic script << 'SAID'
script:2: the line has more than 131072 bytes behind the number of its session
SAID
scripted 'many pairs' 8 'limit 4' \
    '1 quit\n1 load a a\n1 load a b\n2 load a a\n2 load a c\n3 load a d\n3 load a  f\n4 load b a\n4 load b b\n' << 'SAID'
script:8: the line loads one more pair of dictionary files, and 4 are the most
SAID
scripted 'a pair that is not there' 5 missing '1 show\n2 load a.aff a.dic\n3 load b.aff c.dic\n' << 'SAID'
affedit: there is no file `b.aff`
script:3: the line loads it
SAID
# Behind a fault of the .aff file its .dic file is not looked at.
scripted 'the second file of a pair' 5 missing '1 load short.aff none\n1 load a.aff link\n1 load b.aff b.dic\n' << 'SAID'
affedit: `link` is a link to a file that is not there
script:2: the line loads it
SAID
scripted 'a folder of a pair' 5 files '1 load folder none\n' << 'SAID'
affedit: `folder` is a folder, and no file
script:1: the line loads it
SAID
scripted 'a large file of a pair' 8 'limit 16777216' '1 load short.aff large\n1 load a.aff large\n' << 'SAID'
affedit: `large` has 16777217 bytes, and 16777216 are the most
script:2: the line loads it
SAID
scripted 'a large file of a pair, and none behind it' 8 'limit 16777216' '1 load large none\n' << 'SAID'
affedit: `large` has 16777217 bytes, and 16777216 are the most
script:1: the line loads it
SAID
export AFFEDIT_QUIET=1
row 'nothing is to be said' 5 missing check a.aff b.dic text < /dev/null
unset AFFEDIT_QUIET
input=folder
row 'a folder as the input' 5 input edit a.aff a.dic << 'SAID'
affedit: standard input is a folder, and could not be read
SAID
row 'a folder as the input of pipe' 5 input pipe a.aff a.dic << 'SAID'
affedit: standard input is a folder, and could not be read
SAID
input=latin
row 'a text from standard input' 4 'doc 2' check a.aff a.dic /dev/stdin << 'SAID'
/dev/stdin:2: the line is not UTF-8
affedit: a text in Latin-1 becomes UTF-8 by: iconv -f ISO-8859-1 -t UTF-8
SAID
head -c 131073 /dev/zero | tr '\0' a > line
input=line
for command in edit pipe; do
    row "a long line of the input of $command" 8 'limit 131072' "$command" a.aff a.dic << 'SAID'
affedit: the input has too many bytes, or a line of it has: the last line has the number that is the most
SAID
done
input=/dev/null
mkfifo pipe
cat short.aff > pipe &
row 'a dictionary from a pipe' 3 'aff 3 TableShort' check pipe a.dic text << 'SAID'
affedit: a file of the dictionary, or the personal list, has a fault: the last line has the file, the line and the cause
SAID
# Of a script, or a pair, that cannot be read twice, what is known.
echo 0 > pipe &
row 'a script from a pipe' 4 'script 1' team a.aff a.dic pipe << 'SAID'
affedit: `pipe` has a line that is not UTF-8, or is of no form: the last line has its number
affedit: a line of a script is blank, or has the number of a session, one space, and a line of the input of `edit`
SAID
echo '1 load a.aff none' > pipe &
row 'a pair of a script from a pipe' 5 missing team a.aff a.dic pipe << 'SAID'
affedit: a file could not be read, or one that the script loads is not there
SAID
seq -f '1 load a %g' 5 > pipe &
row 'many pairs from a pipe' 8 'limit 4' team a.aff a.dic pipe << 'SAID'
affedit: a file or a line of the script is too large, or it loads too many pairs: the last line has the number that is the most
SAID
cat a.aff > pipe &
scripted 'an .aff file of a pair from a pipe' 5 missing '1 load pipe none\n' << 'SAID'
affedit: a file could not be read, or one that the script loads is not there
SAID
cat a.aff > pipe &
scripted 'the same, and a large file' 8 'limit 16777216' '1 load pipe large\n' << 'SAID'
affedit: a file or a line of the script is too large, or it loads too many pairs: the last line has the number that is the most
SAID
if [ "$(id -u)" = 0 ]; then
    install -m 600 a.dic secret
    chmod a+rx "$work/real" "$work/real/out" "$work/real/tools" "$work/real/tools/launcher"
    said=$("${as_other[@]}" "$affedit" check a.aff secret text 2>&1) && status=0 || status=$?
    [ "$status" = 5 ] && [[ $said == *'affedit: you may not read the file `secret`'* ]] || { echo "a file that may not be read: status $status, said: $said"; failed=1; }
fi

# Each cause of the program has its words, and no other has.
causes_of() { awk -v name="$2" -v kind="$1" '$0 ~ "pub enum " name " " { inside = 1; next } /^}/ { inside = 0 } inside && /^    [A-Z][A-Za-z0-9]*,/ { sub(/,.*/, ""); print kind "\t" $1 }' "$3"; }
{
    causes_of aff AffWhy "$top/crates/aff_lines/src/faults.rt"
    causes_of dic DicWhy "$top/crates/dic_reader/src/faults.rt"
    causes_of own OwnWhy "$top/crates/personal_words/src/faults.rt"
} > "$work/causes"
[ "$(wc -l < "$work/causes")" -gt 20 ] || { echo 'the causes of the program are not found'; failed=1; }
grep -v '^#' "$top/tools/launcher/causes" | cut -f 1,2 | diff "$work/causes" - || { echo 'tools/launcher/causes has other causes than the program'; failed=1; }
# The library says of a fault of a dictionary what the launcher says.
sed -n 's/^ *\(Aff\|Dic\)Why::\([A-Za-z0-9]*\) => /\1\t\2\t/p; s/^ *\("[^"]*"\)$/\1/p' "$top/crates/dictionary_swap/src/causes.rt" |
    awk -F '\t' '/{$/ { sub(/{$/, ""); held = $0; next } { print held $0; held = "" }' | sed 's/"\(.*\)",*$/\1/; s/^Aff/aff/; s/^Dic/dic/' > "$work/library"
grep -E '^(aff|dic)	' "$top/tools/launcher/causes" | diff "$work/library" - || { echo 'crates/dictionary_swap says other causes than tools/launcher/causes'; failed=1; }

# cause KIND LINE CAUSE AFF DIC [OWN]: a fault of these files, as formats of printf, is said at this line.
cause() {
    local kind=$1 line=$2 why=$3 own=() message
    # shellcheck disable=SC2059
    printf "$4" > f.aff
    # shellcheck disable=SC2059
    printf "$5" > f.dic
    # shellcheck disable=SC2059
    [ $# -lt 6 ] || { printf "$6" > f.own; own=(--own f.own); }
    message=$(awk -F '\t' -v kind="$kind" -v why="$why" '$1 == kind && $2 == why { print $3 }' "$top/tools/launcher/causes")
    "$affedit" check f.aff f.dic /dev/null "${own[@]}" > "$work/out" 2> "$work/said" && status=0 || status=$?
    if [ "$status" != 3 ] || [ "$(cat "$work/out")" != "$kind $line $why" ] || [ "$(head -n 1 "$work/said")" != "f.$kind:$line: $message ($why)" ]; then
        echo "$kind $why: status $status, printed: $(cat "$work/out"), said: $(cat "$work/said")"
        failed=1
    fi
    echo "$kind	$why" >> "$work/tried"
}
: > "$work/tried"
cause aff 2 NotUtf8 'SET UTF-8\nTRY \xff\n' '0\n'
cause aff 1 OtherEncoding 'SET ISO8859-1\n' '0\n'
cause aff 1 LeftOut 'COMPLEXPREFIXES\n' '0\n'
cause aff 1 MissingField 'WORDCHARS\n' '0\n'
cause aff 2 Twice 'FLAG long\nFLAG long\n' '0\n'
cause aff 1 BadNumber 'AF many\n' '0\n'
cause aff 1 TooMany 'AF 65001\n' '0\n'
cause aff 1 TableShort 'AF 2\nAF A\n' '0\n'
cause aff 1 OtherFlag 'FLAG wide\n' '0\n'
cause aff 1 BadCross 'SFX A X 0\n' '0\n'
cause aff 1 BadFlag 'NEEDAFFIX ab\n' '0\n'
cause aff 5 BadAlias 'AF 2\nAF A\nAF B\nSFX A Y 1\nSFX A 0 s/3 .\n' '0\n'
cause aff 2 BadCondition 'SFX A Y 1\nSFX A 0 s [ab\n' '0\n'
cause aff 2 BadPattern 'COMPOUNDRULE 1\nCOMPOUNDRULE *a\n' '0\n'
cause dic 2 NotUtf8 '' '1\n\xff\n'
cause dic 1 BadCount '' 'work/A\n'
cause dic 2 EmptyWord '' '1\n po:noun\n'
cause dic 2 BadFlag 'FLAG long\n' '1\nfoo/abc\n'
cause dic 2 BadAlias 'AF 1\nAF A\n' '1\nfoo/2\n'
cause dic 1000002 TooMany '' "9\n$(seq -f 'a%g\n' -s '' 1000001)"
cause own 2 NotUtf8 '' '0\n' 'a\n\xff\n'
cause own 1 EmptyWord '' '0\n' '*\n'
cause own 10001 TooMany '' '0\n' "$(seq -f 'a%g\n' -s '' 10001)"
diff "$work/causes" "$work/tried" || { echo 'not each cause was tried'; failed=1; }

# ---- nothing stands between the program and its input, its output and its signals

"$affedit" check a.aff a.dic text > /dev/full 2> "$work/said" && status=0 || status=$?
[ "$status" = 6 ] && [ "$(cat "$work/said")" = 'affedit: standard output could not be written' ] || { echo "a full disk: status $status, said: $(cat "$work/said")"; failed=1; }
# A pipeline that is not read to its end would end this script too.
{ status=0; "$affedit" make 7 50000 2> "$work/said" || status=$?; echo "$status" > "$work/status"; } | true
[ "$(cat "$work/status")" = 6 ] && [ ! -s "$work/said" ] || { echo "a reader that ends: status $(cat "$work/status"), said: $(cat "$work/said")"; failed=1; }

# ended SIGNAL [-]: a dialogue is answered line by line; the launcher then gets a signal, with a dash the whole group of processes does, as from a
# terminal. The launcher ends by it, and the program is gone.
ended() {
    local launched status=0 answer='' rest=0
    mkfifo to from
    setsid env --default-signal=INT,QUIT "$affedit" edit a.aff a.dic < to > from 2> "$work/said" &
    launched=$!
    exec 7> to 8< from
    rm to from
    echo 'ins 1 wrods' >&7
    read -r -t 300 -u 8 answer || true
    [ "$answer" = 'ok 1' ] || { echo "before $1: the answer is '$answer'"; failed=1; }
    echo 'settle' >&7
    read -r -t 300 -u 8 answer || true
    [ "$answer" = 'ok 1' ] || { echo "before $1: the second answer is '$answer'"; failed=1; }
    kill -s "$1" -- "${2-}$launched"
    wait "$launched" 2> /dev/null || status=$?
    # The program had the only other end of its output.
    read -r -t 300 -u 8 answer || rest=$?
    exec 7>&- 8<&-
    if [ "$status" != $((128 + $(kill -l "$1"))) ] || [ "$rest" != 1 ] || [ -s "$work/said" ]; then
        echo "$1: status $status, the program still there: $rest, said: $(cat "$work/said")"
        failed=1
    fi
}
# The program itself is killed, as where memory is short. The launcher then ends in the same way.
mkfifo to from
"$affedit" edit a.aff a.dic < to > from 2> "$work/said" &
launched=$!
exec 7> to 8< from
rm to from
echo 'ins 1 wrods' >&7
read -r -t 300 -u 8 answer || true
read -r child _ < "/proc/$launched/task/$launched/children" || true
kill -s KILL "$child"
wait "$launched" 2> /dev/null && status=0 || status=$?
exec 7>&- 8<&-
[ "$status" = 137 ] && [ ! -s "$work/said" ] || { echo "the program is killed: status $status, said: $(cat "$work/said")"; failed=1; }
for signal in HUP INT QUIT TERM KILL USR1 PIPE; do
    ended "$signal"
    ended "$signal" -
done
exit "$failed"
