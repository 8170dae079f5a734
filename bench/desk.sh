#!/usr/bin/env bash
# Measures a desk over 20,000 paragraphs, by the program desk_trials that the gate has built: how many edits are published in a second
# by 1, 2 and 4 threads; how many looks are had in a second by 1, 2 and 4 threads, without a thread that publishes and beside one, and the
# nanoseconds that 999 of 1,000 looks took at most; and the most memory that is used after 1,000 events and after EVENTS.
# `desk.sh SECONDS EVENTS` takes so many seconds for each, 3 without, and so many events, 1,000,000 without.
set -euo pipefail
top=$(cd "$(dirname "$0")/.." && pwd)
program=$top/crates/desk_trials/out/desk_trials
seconds=${1:-3}
events=${2:-1000000}
[ -x "$program" ] || { echo "run rt ci first: $program is not built" >&2; exit 2; }
work=$(mktemp -d)
trap 'rm -rf "$work"' EXIT
cp "$top"/crates/desk_trials/data/small.{aff,dic} "$work"
cd "$work"
for ((line = 0; line < 20000; line++)); do echo 'one two three four five'; done > text

# trial WRITERS READERS SECONDS EVENTS: no worker checks meanwhile.
trial() {
    "$program" small.aff small.dic text 0 "$@"
}

echo '| threads that publish | events in a second |'
echo '|---|---|'
for threads in 1 2 4; do
    trial "$threads" 0 "$seconds" 1000000000 | awk -v n="$threads" '$1 == "published" { printf "| %d | %d |\n", n, $3 }'
done

echo
echo '| threads that look | looks in a second | the slowest of 1,000, in ns | beside one that publishes | the slowest of 1,000, in ns |'
echo '|---|---|---|---|---|'
for threads in 1 2 4; do
    alone=$(trial 0 "$threads" "$seconds" 1000000000 | awk '$1 == "looked" { print $3, "|", $4 }')
    beside=$(trial 1 "$threads" "$seconds" 1000000000 | awk '$1 == "looked" { print $3, "|", $4 }')
    echo "| $threads | $alone | $beside |"
done

echo
echo '| events | the most memory, in kB |'
echo '|---|---|'
for count in 1000 "$events"; do
    kb=$({ /usr/bin/time -q -f '%M' "$program" small.aff small.dic text 0 1 0 0 "$count" > /dev/null; } 2>&1)
    echo "| $count | $kb |"
done
