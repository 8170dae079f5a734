#!/usr/bin/env bash
# What the outside does to each command, by the built program itself: an output that is full, closed, or that nobody reads any more; an input
# that is closed, or ends in the middle of a line; files that are cut short, or have no end; a script that is a pipe, standard input, or may not
# be read; too few open files; a lock on the size of files. Each run has a wanted status and a wanted output, or last line, and has to end within
# a minute. Rows of the launcher are in tests/launcher.sh. Prints what went wrong; the status is 0 where nothing did.
set -euo pipefail
top=$(cd "$(dirname "$0")/.." && pwd)
program=$("$top/tests/program")
# Where another user may look in.
work=$(mktemp -d -p /tmp)
trap 'rm -rf "$work"' EXIT
chmod 755 "$work"
mkdir "$work/in"
chmod 755 "$work/in"
cd "$work/in"
failed=0

printf 'SET UTF-8\nTRY esianrtolc\nREP 2\nREP f ph\nREP ph f\nPFX A Y 1\nPFX A 0 re .\nSFX B Y 2\nSFX B 0 ed [^y]\nSFX B y ied y\n' > a.aff
printf '3\nhello\ntry/B\nwork/AB\n' > a.dic
printf 'hello wrold tried\n' > text
printf 'ins 1 hello wrold\nsettle\nshow\n' > lines
printf '1 ins 1 hello wrold\n1 settle\n1 show\n2\n' > script
# All commands, each with its options, and words that are refused.
commands=('check a.aff a.dic text' 'check a.aff a.dic text --workers 2' 'edit a.aff a.dic' 'edit a.aff a.dic --workers 2' 'pipe a.aff a.dic'
    'forms a.aff a.dic' 'team a.aff a.dic script' 'team a.aff a.dic script --workers 2' 'make 7 3')
refused=('check none a.dic text' 'edit a.dic a.aff' 'team a.aff a.dic text' 'chek')

run() { timeout -k 1 60 "$program" "$@"; }

# told WHAT STATUS WANTED [OUTPUT WANTED]: the status that a run ended with, and what it wrote; nothing on standard error.
told() {
    [ "$2" = "$3" ] || { echo "$1: status $2, wanted $3"; failed=1; }
    [ $# -lt 5 ] || [ "$4" = "$5" ] || { echo "$1: printed '$(head -c 300 <<< "$4")', wanted '$5'"; failed=1; }
    [ ! -s "$work/said" ] || { echo "$1: on standard error: $(head -c 300 "$work/said")"; failed=1; }
}

# ended WHAT STATUS OUTPUT WORD..: the status, and the whole output, of a run by the input of this function.
ended() {
    local what=$1 wanted=$2 output=$3 status=0 printed
    shift 3
    printed=$(run "$@" 2> "$work/said") || status=$?
    told "$what, $*" "$status" "$wanted" "$printed" "$output"
}

# ---- outputs that fail

mkfifo held
for words in "${commands[@]}" "${refused[@]}"; do
    # shellcheck disable=SC2086
    run $words < lines > /dev/full 2> "$work/said" && status=0 || status=$?
    told "a full disk, $words" "$status" 6
    # shellcheck disable=SC2086
    run $words < lines >&- 2> "$work/said" && status=0 || status=$?
    told "a closed output, $words" "$status" 6
    # A pipe whose reader has gone before anything is written.
    exec 8<> held
    exec 9> held
    exec 8>&-
    # shellcheck disable=SC2086
    run $words < lines >&9 2> "$work/said" && status=0 || status=$?
    exec 9>&-
    told "a reader that has gone, $words" "$status" 6
    # An output that may not grow. Where the signal XFSZ is not passed over, the system ends the program by it.
    # shellcheck disable=SC2086
    (trap '' XFSZ; ulimit -f 0; run $words < lines > "$work/small" 2> "$work/said") && status=0 || status=$?
    told "an output that may not grow, $words" "$status" 6
done

# A reader that goes away in the middle of much output, or of a dialogue.
seq 20000 | sed 's/.*/wrold/' > much
seq 20000 | sed 's/.*/1 ins 1 wrold/; $s/.*/1 show/' > script.much
{ seq 19000 | sed 's/.*/ins 1 wrold/'; seq 100 | sed 's/.*/show/'; } > lines.much
for words in 'check a.aff a.dic much' 'check a.aff a.dic much --workers 2' 'edit a.aff a.dic' 'edit a.aff a.dic --workers 2' 'pipe a.aff a.dic' \
    'team a.aff a.dic script.much' 'team a.aff a.dic script.much --workers 2'; do
    # shellcheck disable=SC2086
    { status=0; run $words < lines.much 2> "$work/said" || status=$?; echo "$status" > "$work/status"; } | head -c 100 > /dev/null
    told "a reader that goes away, $words" "$(cat "$work/status")" 6
done

# ---- inputs

for words in 'edit a.aff a.dic' 'edit a.aff a.dic --workers 2' 'pipe a.aff a.dic'; do
    # shellcheck disable=SC2086
    printed=$(run $words 2> "$work/said" <&-) && status=0 || status=$?
    told "a closed input, $words" "$status" 5 "$printed" input
    # shellcheck disable=SC2086
    ended 'an input without an end' 8 'limit 131072' $words < /dev/zero
done
for words in 'edit a.aff a.dic' 'edit a.aff a.dic --workers 2'; do
    # shellcheck disable=SC2086
    printf 'ins 1 hello\nsettle\nsho' | ended 'an input that ends within a command' 0 $'ok 1\nok 1\nno Command' $words
    # shellcheck disable=SC2086
    printf 'ins 1 hello\nins 2 caf\xc3' | ended 'an input that ends within a character' 0 $'ok 1\nno Command' $words
done
printf 'hello\nwrol' | ended 'an input that ends within a word' 0 $'*\n\n# wrol 0' pipe a.aff a.dic
printf 'hello\nwrol\xc3' | ended 'an input that ends within a character' 0 $'*\n\nbad 2' pipe a.aff a.dic
ended 'commands that read no input' 0 'total text 0 dict 0' team a.aff a.dic /dev/null <&-

# ---- files

# cut_short STATUS LAST AFF DIC: what each command says of a dictionary that is cut short.
cut_short() {
    local words
    for words in "check $3 $4 text" "check $3 $4 text --workers 2" "edit $3 $4" "edit $3 $4 --workers 2" "pipe $3 $4" "forms $3 $4" "team $3 $4 script" \
        "team $3 $4 script --workers 2"; do
        # shellcheck disable=SC2086
        ended 'a dictionary that is cut short' "$1" "$2" $words < lines
    done
}
head -n 4 a.aff > cut.aff
cut_short 3 'aff 3 TableShort' cut.aff a.dic
{ head -n 8 a.aff; printf 'SFX B 0 ed [^'; } > cut.aff
cut_short 3 'aff 8 TableShort' cut.aff a.dic
: > cut.dic
cut_short 3 'dic 1 BadCount' a.aff cut.dic

# Each front of both files: no fault, or one that is told.
for name in aff dic; do
    cp a.aff cut.aff
    cp a.dic cut.dic
    size=$(stat -c %s "a.$name")
    for length in $(seq 0 "$size"); do
        head -c "$length" "a.$name" > "cut.$name"
        status=0
        printed=$(run check cut.aff cut.dic text 2> "$work/said") || status=$?
        last=${printed##*$'\n'}
        if ! [[ $status = 3 && $printed =~ ^$name\ [0-9]+\ [A-Za-z]+$ || $status = [01] && $last =~ ^[0-3]\ of\ 3$ ]]; then
            echo "the first $length bytes of a.$name: status $status, printed: $printed"
            failed=1
        fi
        [ ! -s "$work/said" ] || { echo "the first $length bytes of a.$name: on standard error: $(cat "$work/said")"; failed=1; }
    done
done

ended 'a file without an end' 8 'limit 16777216' check /dev/zero a.dic text
ended 'a file without an end' 8 'limit 16777216' edit a.aff /dev/zero
ended 'a file without an end' 8 'limit 16777216' pipe a.aff /dev/zero
ended 'a file without an end' 8 'limit 16777216' team a.aff a.dic /dev/zero
ended 'a file without an end' 8 'limit 67108864' check a.aff a.dic /dev/zero
ended 'a file without an end' 8 'limit 16777216' check a.aff a.dic text --own /dev/zero
printf '1 load a.aff /dev/zero\n' > endless
ended 'a pair without an end' 8 'limit 16777216' team a.aff a.dic endless

# ---- scripts

# Replies are kept until all sessions have ended, so a short script may ask for more than there is memory.
{ printf '1 ins 1 '; printf 'wrold %.0s' $(seq 10000); printf '\n1 settle\n'; seq 1000 | sed 's/.*/1 show/'; } > greedy
printed=$(ulimit -v 60000; run team a.aff a.dic greedy 2> "$work/said") && status=0 || status=$?
told 'a script whose replies find no memory' "$status" 7 "$printed" memory

answers=$'session 1\nok 1\nok 1\ntext 1 dict 0\n1 6 11 wrold\n.\nsession 2\ntotal text 1 dict 0'
for workers in 0 2; do
    ended 'a script by standard input' 0 "$answers" team a.aff a.dic /dev/stdin --workers "$workers" < script
    # shellcheck disable=SC2002
    cat script | ended 'a script by a pipe as standard input' 0 "$answers" team a.aff a.dic /dev/stdin --workers "$workers"
    cat script > held &
    ended 'a script by a named pipe' 0 "$answers" team a.aff a.dic held --workers "$workers" < /dev/null
    wait
    ended 'an empty script' 0 'total text 0 dict 0' team a.aff a.dic /dev/null --workers "$workers"
    printf '1 ins 1 hello\n1 settle\n1 sho' | ended 'a script that is cut within a command' 0 $'session 1\nok 1\nok 1\nno Command\ntotal text 1 dict 0' \
        team a.aff a.dic /dev/stdin --workers "$workers"
    printf '1 ins 1 hello\n1 ins 1 caf\xc3' | ended 'a script that is cut within a character' 4 'script 2' team a.aff a.dic /dev/stdin --workers "$workers"
    printf '1 ins 1 hello\n1' | ended 'a script that is cut within a number' 0 $'session 1\nok 1\ntotal text 1 dict 0' \
        team a.aff a.dic /dev/stdin --workers "$workers"
done
ended 'a script within a file' 5 files team a.aff a.dic text/script
as_other=()
if [ "$(id -u)" = 0 ]; then
    as_other=(setpriv --reuid=65534 --regid=65534 --clear-groups)
fi
cp script secret
chmod 000 secret
cp "$program" "$work/program"
printed=$(timeout 60 "${as_other[@]}" "$work/program" team a.aff a.dic secret 2> "$work/said") && status=0 || status=$?
told 'a script that may not be read' "$status" 5 "$printed" files
exit "$failed"
