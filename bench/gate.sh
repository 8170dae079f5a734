#!/usr/bin/env bash
# Runs `rt ci` from nothing, and prints what each crate costs: processor seconds of its proof, of its tests and of its edits, and the wall seconds
# of the prover's longest process over it. Then come the sums, when the program `affedit` was proved, and how long all took.
#     bench/gate.sh                      runs `rt ci --anew`
#     bench/gate.sh WORD..               runs `rt ci WORD..`, as for some crates alone; `--anew NAME` proves these anew
#     bench/gate.sh --read SAMPLES LOG   prints the same of an earlier run, and runs nothing; LOG may be left out
# It looks at the provers of its own run each second, so up to a second of each process is missing. Other proofs of this machine are not counted, but
# slow it down. It runs on the processors that it is given: `taskset -c 0,1 bench/gate.sh` on two. As many proofs run at once as tools/lanes says, or
# RT_JOBS. The looks stay in out/gate-samples, and what rt said
# in out/gate-log. The status is that of rt.
set -euo pipefail
top=$(cd "$(dirname "$(readlink -f "${BASH_SOURCE[0]}")")/.." && pwd)
# The most wall seconds that one process is to take.
bound=480

# look SESSION: the provers that run in a session, a line each: process, processor seconds, wall seconds, command without its libraries.
look() {
    ps -ww -o pid=,cputimes=,etimes=,args= -s "$1" | sed -nE '/\/rattle (build|check) /{s/ (--extern|--lib|-L) [^ ]+//g;p}' || true
}

# run_gate SAMPLES LOG WORD..: runs rt ci, and ends with its status. A line `at SECONDS` stands before each look.
run_gate() {
    local samples=$1 log=$2 gate status=0 began=$SECONDS
    shift 2
    # A session of its own, so that its provers are told from others. A signal that ends this script ends it too.
    setsid rt ci "$@" > "$log" 2>&1 < /dev/null &
    gate=$!
    # shellcheck disable=SC2064
    trap "kill $gate 2> /dev/null || true" EXIT
    : > "$samples"
    while kill -0 "$gate" 2> /dev/null; do
        sleep 1
        { echo "at $((SECONDS - began))"; look "$gate"; } >> "$samples"
    done
    trap - EXIT
    wait "$gate" || status=$?
    return "$status"
}

# table SAMPLES: the table, the sums, and the times. `build .. --test` proves tests. A command with --empty-contracts, which looks for contracts that no
# call can meet, is a proof, and so is a `build`, which makes a program of one. Any other `check` tries an edit, or is the proof that edits begin with.
# One with --progress is of `rt check`, and no part of the gate. In samples without `at` a look counts as a second, and begins at a number that is no
# higher than the one before.
table() {
    LC_ALL=C awk -v bound="$bound" '
        $1 == "at" { now = $2; has_times = 1; next }
        !match($0, /--crate-name [a-z0-9_]+/) || / --progress/ { next }
        {
            crate = substr($0, RSTART + 13, RLENGTH - 13)
            kind = / --test / ? "tests" : (/ --empty-contracts/ || $5 == "build" ? "proof" : "edits")
            if (!has_times && $1 <= before) now++
            before = $1
            # A number may be given to one process after another.
            if (!($1 in process) || $3 < wall[process[$1]] || crate != crates[process[$1]] || kind != kinds[process[$1]]) process[$1] = ++count
            id = process[$1]
            spent[id] = $2; wall[id] = $3; crates[id] = crate; kinds[id] = kind
            if (crate == "affedit" && kind == "proof") stood = now
        }
        function cell(seconds) { return seconds == "" ? "" : seconds + 0 }
        END {
            print "| crate | its proof | its tests | its edits | longest process |"
            print "|---|---|---|---|---|"
            for (id = 1; id <= count; id++) {
                cost[crates[id], kinds[id]] += spent[id]
                sum[kinds[id]] += spent[id]
                if (wall[id] > longest[crates[id]] + 0) longest[crates[id]] = wall[id]
                if (wall[id] > longest_of_all + 0) longest_of_all = wall[id]
                if (wall[id] > bound) late = late sprintf("\n%s, its %s: %d s in one process", crates[id], kinds[id], wall[id])
                names[crates[id]]
            }
            for (name in names)
                printf "| %s | %s | %s | %s | %d |\n", name, cell(cost[name, "proof"]), cell(cost[name, "tests"]), cell(cost[name, "edits"]), longest[name] | "sort"
            close("sort")
            printf "| all | %d | %d | %d | %d |\n\n", sum["proof"], sum["tests"], sum["edits"], longest_of_all
            printf "%d processor seconds in %d processes\n", sum["proof"] + sum["tests"] + sum["edits"], count
            printf "longer than %d s:%s\n", bound, late == "" ? " none" : late
            print stood == "" ? "affedit was not seen" : "affedit was proved after " stood " s"
        }
    ' "$1"
}

# told LOG: how many crates an earlier run had proved, which were not proved in this one, and the last line.
told() {
    awk '/^rt: .* is kept: / { kept++ } /^rt: .* NOT PROVED/ { print } END { if (kept) print kept " crates were kept from earlier runs" }' "$1"
    tail -n 1 "$1"
}

if [ "${1-}" = --read ]; then
    if [ $# -lt 2 ] || [ $# -gt 3 ]; then
        echo 'usage: bench/gate.sh [--read SAMPLES [LOG] | WORD..]' >&2
        exit 2
    fi
    table "$2"
    [ $# = 2 ] || told "$3"
    exit 0
fi
[ -n "$(command -v rt)" ] || { echo 'bench/gate.sh: needs the command rt of the Rattle kit' >&2; exit 2; }
[ $# != 0 ] || set -- --anew
cd "$top"
RT_JOBS=${RT_JOBS-$(tools/lanes)}
export RT_JOBS
mkdir -p out
status=0
run_gate out/gate-samples out/gate-log "$@" || status=$?
table out/gate-samples
told out/gate-log
echo "$SECONDS s in all on $(nproc) processors, by $(rt version), status $status"
exit "$status"
