#!/usr/bin/env bash
# Times `team` on scripts of 1, 4 and 16 sessions, with 0 and with 4 workers. Each session has 10,000 lines, or as many as the first word
# says, over a text of 2,000 paragraphs, or as many as the second word says. The sessions put the paragraphs in, each its share, of 100
# bytes. Then 45 of 100 lines put another text in place of one, 45 replace its first byte, and the others put one in or take one out, at
# random places; one line of 1,000 is a `settle`, and one of 2,000 a `show`. With the word `large` in place of both there is one script, of
# 16 sessions and 1,000,000 lines, with 4 workers or as many as the second word says; and then as many such lines are the input of `edit`
# with these workers, where nothing is refused. Prints a row for each run: how many lines there are, how many of them were refused since
# others had changed or taken out the paragraph, the seconds that passed, the lines in a second, the processor seconds, and the most memory.
# Ends with status 1 where a run has another number of replies than of lines, or another total than its last edit. `TEAM_PROGRAM` names
# another program.
set -euo pipefail
top=$(cd "$(dirname "$0")/.." && pwd)
work=$(mktemp -d)
trap 'rm -rf "$work"' EXIT

# script SESSIONS LINES PARAGRAPHS: a script of so many lines for each session. Its lines are short: 16,777,216 bytes are the most.
script() {
    awk -v sessions="$1" -v lines="$2" -v paragraphs="$3" '
    function any(count) { return int(rand() * count) }
    function word() { return substr("abcdefgh", any(8) + 1, 1) substr("abcdefgh", any(8) + 1, 1) }
    function line(    place, kind) {
        place = any(paragraphs) + 1
        kind = any(2000)
        if (kind == 0) return "show"
        if (kind <= 2) return "settle"
        if (kind < 900) return "put " place " " word()
        if (kind < 1800) return "sub " place " 0 1 " substr("abcdefgh", any(8) + 1, 1)
        if (kind < 1900) return "ins " place " " word()
        return "del " place
    }
    BEGIN {
        srand(1)
        text = "paragraph paragraph paragraph paragraph paragraph paragraph paragraph paragraph paragraph hello word"
        for (number = 1; number <= lines; number++)
            for (session = 1; session <= sessions; session++)
                print session, number <= paragraphs / sessions ? "ins " number " " text : line()
    }'
}

# What is wrong of an output, by how many replies are due. A look is a reply of many lines, of which none begins as another reply.
# shellcheck disable=SC2016
faults='
/^(ok|no|text) / { replies++ }
/^ok / && $2 > last { last = $2 }
/^no (Gone|Behind)/ { refused++ }
END {
    if (replies != due) print "replies: " replies " in place of " due > "/dev/stderr"
    if ($0 != "total text " last " dict 0") print "the last edit is " last ", and the last line: " $0 > "/dev/stderr"
    print refused + 0
    exit replies != due || $0 != "total text " last " dict 0"
}'

# measure SESSIONS LINES PARAGRAPHS WORKERS: of `team`, or of `edit` where SESSIONS is that word.
measure() {
    local count=$1 words=(team "$work/a.aff" "$work/a.dic" "$work/script" --workers "$4") refused seconds spent memory
    if [ "$1" = edit ]; then
        count=1
        words=(edit "$work/a.aff" "$work/a.dic" --workers "$4")
    fi
    script "$count" "$2" "$3" > "$work/script"
    cut -d ' ' -f 2- "$work/script" > "$work/lines"
    /usr/bin/time -q -o "$work/cost" -f '%e %U %S %M' "$program" "${words[@]}" < "$work/lines" > "$work/out"
    if [ "$1" = edit ]; then
        awk '/^ok / && $2 > last { last = $2 } END { print "total text " last " dict 0" }' "$work/out" > "$work/total"
        cat "$work/total" >> "$work/out"
    fi
    refused=$(awk -v due="$((count * $2))" "$faults" "$work/out")
    read -r seconds spent memory < <(awk '{ print $1, $2 + $3, $4 }' "$work/cost")
    awk -v lines="$((count * $2))" -v refused="$refused" -v seconds="$seconds" -v spent="$spent" -v memory="$memory" -v row="| $1 | $4" '
    BEGIN {
        speed = seconds > 0 ? sprintf("%.0f", lines / seconds) : "not told"
        printf "%s | %d | %d | %.2f s | %s | %.2f s | %.1f MB |\n", row, lines, refused, seconds, speed, spent, memory / 1024
    }'
}

printf 'SET UTF-8\n' > "$work/a.aff"
printf '6\nparagraph\nhello\nab\ncd\nef\ngh\n' > "$work/a.dic"
# The launcher builds the program where it is missing; the program itself is timed.
"$top/affedit" check "$work/a.aff" "$work/a.dic" "$work/a.dic" > /dev/null || [ $? -eq 1 ]
program=${TEAM_PROGRAM:-$top/out/affedit}
echo '| sessions | workers | lines | refused | time | lines in a second | processor time | memory |'
echo '|---|---|---|---|---|---|---|---|'
if [ "${1:-}" = large ]; then
    measure 16 62500 2000 "${2:-4}"
    measure edit 1000000 2000 "${2:-4}"
    exit
fi
for sessions in 1 4 16; do
    for workers in 0 4; do
        measure "$sessions" "${1:-10000}" "${2:-2000}" "$workers"
    done
done
