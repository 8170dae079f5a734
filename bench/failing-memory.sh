#!/usr/bin/env bash
# Makes each request for memory of the built program fail in turn, until a run has none that fails.
# - `check`, alone and with two workers: on the sample's dictionary, on one with aliases, classes and a twofold suffix, on one with ICONV,
#   IGNORE and BREAK, on one with compounds by flags and by rules, and on one that is refused in its last line.
# - `edit` in three dialogues: edits with a paragraph that is stopped and asked for, and marks that are shown; a dictionary that is loaded,
#   and another one that is refused; a personal list, to which words are added. And in one with two workers, each of its looks behind a `settle`.
# - `team` with two and with three sessions, without workers and with two; `pipe`, `forms` and `make`.
# - Tests of desks, which say themselves whether they pass: events that find no memory; and `Board::next`, `Desk::publish`, `Desk::claim` and
#   `settle`, behind each of which the board of before is shown where it finds none, and which pass when they are called again.
# Then the same with each start of a thread in place of each request for memory: such a run has to end as one in which none fails.
# With a number K as its word, it tries each K-th request alone. Four runs go at once.
# Each run has to end within a minute, as the run without a failing request or with status 7 and `memory`: alone, or behind whole first
# replies of a dialogue. Where threads may change what is printed, tests/team_history.py decides whether one history explains it.
# Prints a row for each: how many requests failed, and what the runs ended with. Ends with status 1 if one ended otherwise, and with 2 where
# a test of desks is not built. Needs gcc and Python 3.
set -euo pipefail
top=$(cd "$(dirname "$0")/.." && pwd)
work=$(mktemp -d)
trap 'rm -rf "$work"' EXIT

cat > "$work/fail.c" << 'C'
#define _GNU_SOURCE
#include <dlfcn.h>
#include <errno.h>
#include <pthread.h>
#include <stdatomic.h>
#include <stdlib.h>
#include <unistd.h>

extern void *__libc_malloc(size_t), *__libc_calloc(size_t, size_t), *__libc_realloc(void *, size_t), *__libc_memalign(size_t, size_t);

// How many requests are left up to the one that fails; threads count together.
static atomic_long requests, threads;

__attribute__((constructor)) static void start(void) {
    const char *request = getenv("FAIL_ALLOCATION"), *thread = getenv("FAIL_THREAD");
    requests = request ? atol(request) : 0;
    threads = thread ? atol(thread) : 0;
}

static int fails(atomic_long *left) {
    if (atomic_load(left) <= 0 || atomic_fetch_sub(left, 1) != 1)
        return 0;
    if (write(2, "failed\n", 7) != 7)
        _exit(99);
    return 1;
}

static int wants_memory(void) {
    if (!fails(&requests))
        return 0;
    errno = ENOMEM;
    return 1;
}

void *malloc(size_t size) { return wants_memory() ? NULL : __libc_malloc(size); }

void *calloc(size_t count, size_t size) { return wants_memory() ? NULL : __libc_calloc(count, size); }

void *realloc(void *old, size_t size) { return wants_memory() ? NULL : __libc_realloc(old, size); }

void *aligned_alloc(size_t align, size_t size) { return wants_memory() ? NULL : __libc_memalign(align, size); }

int posix_memalign(void **out, size_t align, size_t size) {
    void *made = wants_memory() ? NULL : __libc_memalign(align, size);
    if (!made)
        return ENOMEM;
    *out = made;
    return 0;
}

int pthread_create(pthread_t *made, const pthread_attr_t *how, void *(*run)(void *), void *given) {
    static int (*real)(pthread_t *, const pthread_attr_t *, void *(*)(void *), void *);
    if (!real)
        real = (int (*)(pthread_t *, const pthread_attr_t *, void *(*)(void *), void *))dlsym(RTLD_NEXT, "pthread_create");
    return fails(&threads) ? EAGAIN : real(made, how, run, given);
}
C
gcc -shared -fPIC -O1 -o "$work/fail.so" "$work/fail.c" -ldl
# The folders have the files a.aff, a.dic, and text or, for a dialogue, the lines of its input.
mkdir "$work/sample" "$work/affixes" "$work/conversions" "$work/compounds" "$work/refused" "$work/edits" "$work/loads"
cp "$top/crates/affedit/data/a.aff" "$top/crates/affedit/data/a.dic" "$work/sample"
printf 'hello 2nd wrld' > "$work/sample/text"

cat > "$work/affixes/a.aff" <<'AFF'
SET UTF-8
AF 2
AF S
AF RP
PFX P Y 1
PFX P 0 un .
SFX S Y 1
SFX S 0 s .
SFX R Y 1
SFX R 0 able/1 [^y]
AFF
printf '2\ndrink/2\nwork\n' > "$work/affixes/a.dic"
printf 'undrinkables drink\ndrinks' > "$work/affixes/text"

cat > "$work/conversions/a.aff" <<'AFF'
SET UTF-8
WORDCHARS -/
ICONV 1
ICONV ’ '
IGNORE -
BREAK 1
BREAK /
AFF
printf "3\ndon't\nco-op\nbar\n" > "$work/conversions/a.dic"
# shellcheck disable=SC1112
printf 'don’t co-op coop/bar bar/foo' > "$work/conversions/text"

cat > "$work/compounds/a.aff" <<'AFF'
SET UTF-8
COMPOUNDFLAG X
COMPOUNDRULE 1
COMPOUNDRULE ab?
CHECKCOMPOUNDPATTERN 1
CHECKCOMPOUNDPATTERN oo ba
CHECKCOMPOUNDREP
REP 1
REP y i
AFF
printf '6\nfoo/X\nbar/X\nser/X\nvyz/X\nserviz\nten/ab\n' > "$work/compounds/a.dic"
printf 'barfoo foobar servyz tenten barbarfoo' > "$work/compounds/text"

cat > "$work/refused/a.aff" <<'AFF'
SET UTF-8
SFX S Y 1
SFX S 0 s .
NEEDAFFIX N
COMPLEXPREFIXES
AFF
printf '1\nwork/S\n' > "$work/refused/a.dic"
printf 'works' > "$work/refused/text"

# Two dialogues that are rows of tests in crates/affedit too, with the files that they name.
cat > "$work/edits/a.aff" <<'AFF'
SET UTF-8
TRY esianrtolc
REP 2
REP f ph
REP ph f
PFX A Y 1
PFX A 0 re .
SFX B Y 2
SFX B 0 ed [^y]
SFX B y ied y
AFF
printf '3\nhello\ntry/B\nwork/AB\n' > "$work/edits/a.dic"
cat > "$work/edits/lines" <<'LINES'
ins 1 hello wrold
ins 2 wurk
show
settle
show
put 1 hello work
show
stop 1
settle
show
ask 1
settle
show
quit
LINES

cp "$work/edits/a.aff" "$work/edits/a.dic" "$work/loads"
printf 'SET UTF-8\n' > "$work/loads/b.aff"
printf '1\nwrold\n' > "$work/loads/b.dic"
printf 'SET ISO8859-1\n' > "$work/loads/c.aff"
cat > "$work/loads/lines" <<'LINES'
ins 1 hello wrold
settle
show
load b.aff b.dic
show
settle
show
load c.aff b.dic
show
LINES

# A dialogue by a personal list, to which words are added, and which is kept for the next dictionary.
mkdir "$work/personal"
cp "$work/loads/"*.aff "$work/loads/"*.dic "$work/personal"
printf 'wurk\n*hello\n' > "$work/personal/words"
cat > "$work/personal/lines" <<'LINES'
ins 1 hello wurk rejig
own jig/work
own *
settle
show
load b.aff b.dic
settle
show
LINES

# A dialogue for workers, in which each look stands behind a `settle`: threads change no answer to it.
mkdir "$work/settled"
cp "$work/loads/"*.aff "$work/loads/"*.dic "$work/settled"
cat > "$work/settled/lines" << 'LINES'
ins 1 hello wrold
ins 2 wurk
settle
show
put 1 hello work
load b.aff b.dic
settle
show
load c.aff b.dic
quit
LINES

# Lines for `pipe`, scripts of two sessions and of three, and the dictionaries that they load.
mkdir "$work/piped" "$work/sessions"
cp "$work/edits/a.aff" "$work/edits/a.dic" "$work/piped"
printf 'hello wrold\n^reworked\n!\nhello\n%%\n*x\nhello\n\n' > "$work/piped/lines"
PYTHONDONTWRITEBYTECODE=1 python3 - "$top/tests" "$work/sessions" << 'PYTHON'
import sys
sys.path.insert(0, sys.argv[1])
import console_files
console_files.write_all(sys.argv[2])
PYTHON
cat > "$work/sessions/two" << 'LINES'
1 ins 1 hello wrold
2 ins 1 wurk
1 settle
2 put 1 x
1 show
2 load b.aff b.dic
1 sub 1 0 1 y
2 settle
2 show
LINES
cat > "$work/sessions/three" << 'LINES'
1 ins 1 foobar
2 ins 1 hello
3 show
1 put 1 foo
2 del 1
3 stop 1
3 ask 1
2 settle
1 load bad.aff a.dic
3 show
2 quit
LINES

# The launcher builds the program where it is missing.
"$top/affedit" make 1 1 > /dev/null || [ $? -eq 1 ]
program=$top/out/affedit

cat > "$work/runs.py" << 'PYTHON'
import collections
import concurrent.futures
import os
import subprocess
import sys

sys.dont_write_bytecode = True
top, work, program, step = sys.argv[1], sys.argv[2], sys.argv[3], int(sys.argv[4])
sys.path.insert(0, os.path.join(top, 'tests'))
import console_files
import team_marks
import team_trial
from console_model import Wrong
from team_history import Undecided
from team_lines import sessions_of

# No run takes longer. With threads, the run that has no failing request may come before one that has: so many without one are the end.
LIMIT, AT_ONCE, ENOUGH = 60, 4, 8
PAIR = (b'a.aff', b'a.dic')
marks = team_marks.ProgramMarks(program, os.path.join(work, 'sessions'))


def run(row, variable, number):
    """What a run ended with, its output, and whether something failed in it."""
    folder, words, given = row[1:4]
    environment = {**os.environ, 'LD_PRELOAD': os.path.join(work, 'fail.so'), variable: str(number)}
    with open(os.path.join(work, folder, given) if given else os.devnull, 'rb') as source:
        try:
            done = subprocess.run([program, *words.split()], cwd=os.path.join(work, folder), stdin=source, capture_output=True, env=environment,
                                  timeout=LIMIT, check=False)
        except subprocess.TimeoutExpired:
            return 'hangs', b'', True
    if done.stderr not in (b'', b'failed\n'):
        return f'{done.returncode}, and says {done.stderr!r}', done.stdout, True
    return done.returncode, done.stdout, bool(done.stderr)


def fronts(whole, kind):
    """The first replies of a dialogue, as many as one likes."""
    said, inside = b'', False
    yield said
    for line in whole.splitlines(keepends=True):
        said += line
        if kind == 'edit':
            inside = line.startswith(b'text ') or inside and line != b'.\n'
        else:
            inside = line != b'\n'
        if not inside:
            yield said


def is_explained(script, workers, output):
    """Whether a history explains an output of `team`; of one that cannot be decided nothing is said."""
    with open(os.path.join(work, 'sessions', script), 'rb') as file:
        sessions = sessions_of(file.read())
    try:
        team_trial.decide(sessions, PAIR, workers, output, marks, 100_000)
    except Undecided:
        return True
    except Wrong as wrong:
        print(wrong)
        return False
    return True


def is_right(row, whole, status, output, kind):
    """Whether a run ended as the one without a failing request, or said that memory is wanting."""
    if kind != 'thread' and status == 7:
        replies = fronts(whole[1], row[4]) if row[4] in ('edit', 'pipe') else [b'']
        return output in {front + b'memory\n' for front in replies}
    if row[4] == 'team':
        return status == 0 and is_explained(row[3] or row[5], row[6], output)
    return (status, output) == whole


def tries(row, kind, step, pool):
    """Tries each request in turn; gives how many failed, how the runs ended, and whether all of them ended well."""
    variable = 'FAIL_THREAD' if kind == 'thread' else 'FAIL_ALLOCATION'
    whole = run(row, variable, 0)[:2]
    if row[4] == 'team' and not is_right(row, whole, *whole, 'thread'):
        print(f'{row[0]}: the run without a failing request ended with {whole}')
        return 0, collections.Counter(), False
    ends, failed, well, quiet, first = collections.Counter(), 0, True, 0, 1
    while quiet < ENOUGH:
        numbers = range(first, first + 4 * AT_ONCE * step, step)
        first = numbers[-1] + step
        for number, (status, output, has_failed) in zip(numbers, pool.map(lambda number: run(row, variable, number), numbers)):
            quiet = 0 if has_failed else quiet + 1
            failed += has_failed
            if not is_right(row, whole, status, output, kind):
                print(f'{row[0]}: with {variable}={number} the status is {status}, the output:\n{output.decode(errors="replace")}')
                well = False
            if has_failed:
                ends['memory alone' if (status, output) == (7, b'memory\n') else 'behind replies' if status == 7 else 'as else'] += 1
    return failed, ends, well


def rows():
    for folder in ('sample', 'affixes', 'conversions', 'compounds', 'refused'):
        yield f'check, {folder}', folder, 'check a.aff a.dic text', None, 'check'
        yield f'check, {folder}, 2 workers', folder, 'check a.aff a.dic text --workers 2', None, 'check'
    yield 'edit, edits', 'edits', 'edit a.aff a.dic', 'lines', 'edit'
    yield 'edit, loads', 'loads', 'edit a.aff a.dic', 'lines', 'edit'
    yield 'edit, personal words', 'personal', 'edit a.aff a.dic --own words', 'lines', 'edit'
    for workers in (0, 2):
        yield f'edit, looks behind settle, {workers} workers', 'settled', f'edit a.aff a.dic --workers {workers}', 'lines', 'edit'
    for script in ('two', 'three'):
        for workers in (0, 2):
            yield f'team, {script} sessions, {workers} workers', 'sessions', f'team a.aff a.dic {script} --workers {workers}', None, 'team', script, workers
    yield 'pipe', 'piped', 'pipe a.aff a.dic', 'lines', 'pipe'
    yield 'forms', 'affixes', 'forms a.aff a.dic', None, 'forms'
    yield 'make', 'sample', 'make 7 40', None, 'make'


def main():
    well = True
    with concurrent.futures.ThreadPoolExecutor(AT_ONCE) as pool:
        print('| run | requests that failed in turn | `memory` alone | behind replies | as else |')
        print('|---|---|---|---|---|')
        for row in rows():
            failed, ends, is_well = tries(row, 'memory', step, pool)
            print(f'| {row[0]} | {failed} | {ends["memory alone"]} | {ends["behind replies"]} | {ends["as else"]} |', flush=True)
            well = well and is_well and failed > 0
        print('\n| run | starts of a thread that failed in turn | as else |\n|---|---|---|')
        for row in rows():
            if 'workers' in row[0] or row[4] == 'team':
                failed, ends, is_well = tries(row, 'thread', 1, pool)
                print(f'| {row[0]} | {failed} | {ends["as else"]} |', flush=True)
                well = well and is_well
    sys.exit(0 if well else 1)


main()
PYTHON

wrong=0
python3 "$work/runs.py" "$top" "$work" "$program" "${1:-1}" || wrong=1

# Tests of desks, each of which passes whichever request fails. refuse CRATE TEST: makes each request of a test fail in turn, and tells in
# `refused` how many there are.
refuse() {
    local tests=$top/crates/$1/out/${1}_tests which status
    [ -x "$tests" ] || { echo "run rt ci first: $tests is not built" >&2; exit 2; }
    for which in $(seq 1 100000); do
        status=0
        # `timeout` makes requests of its own, which are not to fail.
        timeout 60 env FAIL_ALLOCATION="$which" LD_PRELOAD="$work/fail.so" "$tests" "tests::memory::$2" > /dev/null 2> "$work/told" || status=$?
        grep -q failed "$work/told" || break
        if [ "$status" != 0 ]; then
            echo "$2: the test fails where request $which does"
            wrong=1
        fi
    done
    [ "$status" = 0 ] || { echo "$2: the test fails where no request does"; wrong=1; }
    refused=$((which - 1))
}

# An event that finds no memory is not seen by another eye, and each other one is.
refuse desk_tests an_event_without_memory_is_not_seen
printf '\n| test of desks | requests that failed in turn | of these in the calls |\n|---|---|---|\n| `an_event_without_memory_is_not_seen` | %s | |\n' "$refused"
# Behind a call that finds no memory both eyes see the board of before, and the same call passes then. Another test takes all memory that is
# taken before the calls, and makes none: what is left are the requests within the calls.
while read -r before test; do
    refuse desk_tests "$before"
    outside=$refused
    refuse desk_tests "$test"
    echo "| \`$test\` | $refused | $((refused - outside)) |"
    [ "$refused" -gt "$outside" ] || { echo "$test: no request is made in its calls"; wrong=1; }
done << 'TESTS'
boards_stand_before_events a_next_without_memory_leaves_the_board
boards_stand_before_events a_publish_without_memory_shows_the_board_of_before
a_board_stands_before_a_check a_claim_without_memory_shows_the_board_of_before
a_board_stands_before_a_check a_settle_without_memory_shows_the_board_of_before
TESTS
exit "$wrong"
