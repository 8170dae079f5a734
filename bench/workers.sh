#!/usr/bin/env bash
# Measures workers over a desk, by the program desk_trials that the gate has built, with Debian's American dictionary: how many of 20,000
# paragraphs of some 40 bytes each are claimed and finished in a second by 1, 2 and 4 workers, each on a thread of its own, once alone and once
# beside a session that replaces the first byte of the last paragraph all the while. The words are taken from the dictionary, each as likely
# as the others. `workers.sh SECONDS` gives each at most so many seconds, 60 without.
# "Inside" is the share of the workers' time that was spent inside their calls of `claim` and `finish`: under the lock and waiting for it,
# since no clock is read under the lock. One worker alone never waits. So what it was inside for each finish is taken for the time that the lock
# is held, and "waiting" is by how much the others were inside for longer than that, as a share of their time. That others are slower for
# another cause, as for a full machine, is counted as waiting too.
set -euo pipefail
top=$(cd "$(dirname "$0")/.." && pwd)
program=$top/crates/desk_trials/out/desk_trials
seconds=${1:-60}
[ -x "$program" ] || { echo "run rt ci first: $program is not built" >&2; exit 2; }
work=$(mktemp -d)
trap 'rm -rf "$work"' EXIT
cd "$work"
. "$top/bench/packages.bash"
unpack hunspell-en-us
prepare hunspell-en-us/usr/share/hunspell/en_US.aff en_US

# The words of small letters, at places that go on by a step without a divisor in common with their count, so that each comes in its turn.
awk -F/ 'NR > 1 && $1 ~ /^[a-z]+$/ { words[n++] = $1 }
    END {
        for (line = 0; line < 20000; line++) {
            text = ""
            while (length(text) < 37) {
                at = (at + 7919) % n
                text = text (text == "" ? "" : " ") words[at]
            }
            print text
        }
    }' en_US.dic > text
awk '{ bytes += length($0) + 1; words += NF } END { printf "%d paragraphs, %d bytes, %d words\n\n", NR, bytes, words }' text

hold=0
# row WORKERS SESSIONS
row() {
    /usr/bin/time -q -o took -f '%U %S' "$program" en_US.aff en_US.dic text "$1" "$2" 0 "$seconds" 1000000000 > figures
    awk -v n="$1" -v sessions="$2" -v hold="$hold" -v took="$(awk '{ print $1 + $2 }' took)" '
        { first[$1] = $2; second[$1] = $3 }
        END {
            waiting = hold ? first["inside"] - first["finished"] * hold : 0
            printf "| %d | %s | %d | %d | %d | %d | %.0f %% | %.0f %% | %.1f s |\n", n, sessions ? "editing" : "none", second["claimed"],
                second["finished"], first["dropped"], second["published"], 100 * first["inside"] / second["inside"],
                100 * (waiting > 0 ? waiting : 0) / second["inside"], took
        }' figures
}

echo '| workers | session | claims in a second | finishes in a second | checks dropped | edits in a second | inside | of it waiting | processor time |'
echo '|---|---|---|---|---|---|---|---|---|'
for sessions in 0 1; do
    for workers in 1 2 4; do
        row "$workers" "$sessions"
        [ "$hold" != 0 ] || hold=$(awk '$1 == "finished" { n = $2 } $1 == "inside" { print $2 / n }' figures)
    done
done
