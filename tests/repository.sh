#!/usr/bin/env bash
# What the repository says of itself. docs/ARCHITECTURE.md has the picture of crates.txt (tools/storeys), no name stands for two things but those of
# tests/names.txt (tools/names), and what the documents name is there (tools/documented). NOTICE names the crates of the kit that crates.txt names. Then
# come these tools over a folder of small crates made for this. Last is what bench/gate.sh prints of a stored run, and of a run of a kit made for this,
# which proves nothing. Prints what went wrong; the status is 0 if nothing did.
# shellcheck disable=SC2119,SC2120,SC2317
set -euo pipefail
top=$(cd "$(dirname "$0")/.." && pwd)
# shellcheck source=tests/skips.bash
. "$top/tests/skips.bash"
work=$(mktemp -d)
trap 'rm -rf "$work"' EXIT
here=$work/checkout
failed=0

# expect WHAT STATUS COMMAND..: the command ends so, and prints what stands on standard input.
expect() {
    local what=$1 wanted=$2 status=0
    shift 2
    cat > "$work/wanted"
    "$@" > "$work/said" 2>&1 < /dev/null || status=$?
    if [ "$status" != "$wanted" ] || ! diff "$work/wanted" "$work/said"; then
        echo "$what: status $status, wanted $wanted"
        failed=1
    fi
}
storeys() { "$here/tools/storeys" "$@"; }
names() { "$here/tools/names" "$@"; }
gate() { PATH=$work/kit:$PATH "$here/bench/gate.sh" "$@"; }

# ---- NOTICE: the crates of the kit that the program and the library for C are made of by crates.txt, and std, which is always there.
# shellcheck source=tools/launcher/sources.bash
. "$top/tools/launcher/sources.bash"
# parts: the words of crates.txt behind the names of these crates, but for the crates of the repository.
parts() {
    {
        echo std
        crates_of "${kept_builds[@]}" | while IFS= read -r name; do
            sed -n "s/#.*//; s/^$name\\( [^:]*\\)\\?://p" "$top/crates.txt" | tr -s ' ' '\n' | sed '/^$/d'
        done
    } | LC_ALL=C sort -u | LC_ALL=C comm -23 - <(sed -n 's/^\([a-z_0-9]*\)[ :].*/\1/p' "$top/crates.txt" | LC_ALL=C sort)
}
noticed() { awk '/^1\. / { inside = 1 } /^2\. / { exit } inside && /^[a-z]/ { sub(/:.*/, ""); gsub(/, /, "\n"); print }' "$top/NOTICE" | LC_ALL=C sort; }
expect 'the crates in NOTICE' 0 noticed < <(parts)

mkdir -p "$here"/{bench,tools,docs,tests} "$here"/crates/{low,lower,app,app_tests}/{src,specs} "$work/kit"
cp "$top"/tools/{lanes,names,storeys} "$here/tools"
cp "$top/bench/gate.sh" "$here/bench"

if has 'tools/storeys, tools/names, tools/documented' python3; then
    # ---- this repository
    expect 'the picture of the crates' 0 "$top/tools/storeys" < /dev/null
    expect 'the names' 0 "$top/tools/names" --check < /dev/null
    expect 'the documents' 0 "$top/tools/documented" < /dev/null

    # ---- the picture of small crates
    printf '%s\n' '# Words.' 'lower:' 'low: lower indexmap # with a remark' 'app may_wait=1: low lower' 'app_tests: lower' > "$here/crates.txt"
    : > "$here/crates/app/src/main.rt"
    printf '%s\n' 'Above.' '<!-- storeys: made by tools/storeys -->' '<!-- end of storeys -->' 'Below.' > "$here/docs/ARCHITECTURE.md"
    expect 'a picture to be made' 0 storeys --write < /dev/null
    expect 'the picture that was made' 0 cat "$here/docs/ARCHITECTURE.md" << 'PICTURE'
Above.
<!-- storeys: made by tools/storeys -->

    tests       app_tests
    storey 3    app
    storey 2    low
    storey 1    lower

A longest chain has 3 crates: `app`, `low` and `lower`.
<!-- end of storeys -->
Below.
PICTURE
    expect 'its own picture' 0 storeys < /dev/null
    expect 'storeys and names a line' 0 storeys --count <<< '3 storeys, 4 crates, 1.2 names a line'
    sed -i 's/^app_tests: lower/&\nother: low/' "$here/crates.txt"
    expect 'a crate more' 1 storeys << 'DIFFERENCE'
docs/ARCHITECTURE.md has another picture of the crates than crates.txt; to renew it, run tools/storeys --write:
--- docs/ARCHITECTURE.md
+++ crates.txt
@@ -1,5 +1,5 @@
 
-    tests       app_tests
+    tests       app_tests other
     storey 3    app
     storey 2    low
     storey 1    lower
DIFFERENCE
    sed -i /end/d "$here/docs/ARCHITECTURE.md"
    expect 'a document without a place' 2 storeys << 'SAID'
tools/storeys: docs/ARCHITECTURE.md has not both lines: <!-- storeys: made by tools/storeys --> and <!-- end of storeys -->
SAID
    expect 'other words for storeys' 2 storeys --wide <<< 'usage: tools/storeys [--write | --count]'

    # ---- names of small crates: one as a definition, one as a type, and what is none
    printf '%s\n' '-- same : a comment' 'use Rattle.low.specs.Of.{only}' 'abbrev pub same : ℕ' 'same = 1' 'pub record Whole : Type 0 where' '  pub part : ℕ' \
        > "$here/crates/low/specs/One.antt"
    printf '%s\n' 'unfoldable same : ℕ → ℕ' 'same n = n' 'pub data Part : Type 0 where' '  | Whole : Part' 'part {X : Type 0} : X → X' 'part x = x' \
        > "$here/crates/app/specs/Two.antt"
    printf '%s\n' 'pub struct Seat {' '    pub from: u32,' '}' 'impl Model for Seat {' '    type Value = Seat;' '}' > "$here/crates/low/src/lib.rt"
    printf '%s\n' 'pub use low::Line;' 'pub(crate) enum Seat<T> {' '    Line(T),' '}' 'impl Model for Seat<u8> {' '    type Value = u8;' '}' > "$here/crates/app/src/main.rt"
    expect 'all names' 0 names << 'NAMES'
definition same: app/specs/Two.antt low/specs/One.antt
type Seat: app/src/main.rt low/src/lib.rt
1 definitions, 1 types
NAMES
    printf '%s\n' '# Those that are meant.' 'definition same' 'type Line' > "$here/tests/names.txt"
    expect 'a list that lacks a name and has one too much' 1 names --check << 'SAID'
type Seat stands for two things, in app/src/main.rt and low/src/lib.rt: give one of them a name of its own
type Line stands for one thing now: take it out of tests/names.txt (tools/names --take-out)
SAID
    expect 'a name to be taken out' 0 names --take-out < /dev/null
    expect 'a list that shrinks and never grows' 0 cat "$here/tests/names.txt" <<< $'# Those that are meant.\ndefinition same'
    echo 'type Seat' >> "$here/tests/names.txt"
    expect 'a list of all names' 0 names --check < /dev/null
    echo 'Seat' >> "$here/tests/names.txt"
    expect 'a line without a kind' 2 names --check <<< 'tools/names: tests/names.txt has a line that is no kind and name: Seat'

    # ---- documents of small crates: what is there, and of each rule what is not
    told=$work/told
    mkdir -p "$told"/{docs,mutants/low} "$told"/crates/{low,high}/{src,specs,must-fail}
    expect 'no document' 2 "$top/tools/documented" "$told" <<< 'tools/documented: there is no document'
    printf '%s\n' 'pub struct LowPlace {}' 'impl LowPlace {' '    pub fn go_on() {}' '}' > "$told/crates/low/src/lib.rt"
    printf '%s\n' '-- in_no_line' 'abbrev pub is_low : ℕ → Bool' 'is_low n = is_used n' > "$told/crates/low/specs/Lows.antt"
    printf '%s\n' 'pub fn is_high() {}' > "$told/crates/high/src/lib.rt"
    : > "$told/crates/low/must-fail/left_out.edit"
    : > "$told/mutants/low/left_over.edit"
    cat > "$told/docs/TOLD.md" << 'DOCUMENT'
# Lows (`low`)

`LowPlace::go_on` and `go_on()`, `left_out`, `crates/low/src/lib.rt`, `docs/TOLD.md`, `lib.rt`, `crates/NAME/x`, `de_AT`, `a/b`.
`LowPlace::go_in`, `GoneType`, `gone_name`,
`crates/low/src/gone.rt`, `gone.rt`.

    `not_looked_at`

`is_low`, in [crates/low/specs/Lows.antt](../crates/low/specs/Lows.antt). `go_on` in `specs/Lows.antt`.

- **`low`**: `is_low`. And `is_high` of `high`. But `is_high` alone.

| definition | module | meaning |
|---|---|---|
| `is_low` | Lows | |
| `is_used`, `in_no_line` | Lows | |
| `LowPlace` | Lows (and a type of the code) | |
| `is_high` | lib (`high`) | |
| `is_low` | Highs | |

| definition | file under `crates/` |
|---|---|
| `is_low` | `low/specs/Lows.antt` |
| `is_high` | `low/specs/Lows.antt` |

| crate | edit |
|---|---|
| `low` | `left_out`, `left_`, `left_over` |
| | `left_in` |
| `high` | `left_out` |
DOCUMENT
    cp "$told/docs/TOLD.md" "$told/README.md"
    expect 'small documents' 1 "$top/tools/documented" "$told" < <(for name in README.md docs/TOLD.md; do
        sed "s|^|$name:|" << 'SAID'
3: `LowPlace::go_in` stands nowhere in the code
3: `GoneType` stands nowhere in the code
3: `gone_name` stands nowhere in the code
3: `crates/low/src/gone.rt` is no file or folder
3: `gone.rt` is no file or folder
9: `go_on` does not stand in specs/Lows.antt
11: `is_high` does not stand in low
16: `is_used` is not declared in crates/low/specs/Lows.antt
16: `in_no_line` is not declared in crates/low/specs/Lows.antt
19: `Highs` is no module of low
24: `is_high` is not declared in crates/low/specs/Lows.antt
29: `left_in` is no edit of low
30: `left_out` is no edit of high
SAID
    done)
fi

# ---- the table of a run that was made before: of the kinds of processes, of a number that is given twice, and of one process that is too long
cat > "$work/samples" << 'SAMPLES'
at 1
  10       1       1 /kit/bin/rattle build --crate-name low src/lib.rt --jobs 1 --statements -o out/rlib/low.rlib --empty-contracts
  11       2       1 /kit/bin/rattle check --crate-name low src/lib.rt --jobs 1 --progress
at 500
  10     400     500 /kit/bin/rattle build --crate-name low src/lib.rt --jobs 1 --statements -o out/rlib/low.rlib --empty-contracts
at 501
  10       7       9 /kit/bin/rattle build --crate-name low src/lib.rt --test --jobs 1 --backend llvm -o out/low_tests.o --empty-contracts
at 502
  10       3       1 /kit/bin/rattle check --crate-name low src/lib.rt --jobs 1 --incremental /tmp/seed
  12       4       6 /kit/bin/rattle check --crate-name affedit src/main.rt --jobs 1 -o /tmp/checked --empty-contracts
at 503
  12       2       1 /kit/bin/rattle build --crate-name affedit src/main.rt --crate-checked /tmp/checked --backend llvm -o out/affedit.o
at 504
SAMPLES
printf '%s\n' 'rt: lower is kept: an earlier run on this machine proved the same files' 'rt: low proved' 'rt: affedit proved' '2 passed, 0 failed' > "$work/log"
table=$(cat << 'TABLE'
| crate | its proof | its tests | its edits | longest process |
|---|---|---|---|---|
| affedit | 6 |  |  | 6 |
| low | 400 | 7 | 3 | 500 |
| all | 406 | 7 | 3 | 500 |

416 processor seconds in 5 processes
longer than 480 s:
low, its proof: 500 s in one process
affedit was proved after 503 s
TABLE
)
expect 'a run that was made before' 0 gate --read "$work/samples" "$work/log" <<< "$table"$'\n1 crates were kept from earlier runs\n2 passed, 0 failed'
expect 'samples alone' 0 gate --read "$work/samples" <<< "$table"
grep -v '^at' "$work/samples" > "$work/looks"
expect 'samples without times' 0 gate --read "$work/looks" <<< "${table/503/4}"
expect 'no samples' 2 gate --read <<< 'usage: bench/gate.sh [--read SAMPLES [LOG] | WORD..]'

# ---- a run of its own: a kit whose prover waits, and whose gate fails
cat > "$work/kit/rt" << 'RT'
#!/usr/bin/env bash
[ "$1" = ci ] || { echo 'kit one'; exit 0; }
"${0%/*}/rattle" build --crate-name low "$2" --empty-contracts --extern lists=/kit/lists
echo 'rt: low NOT PROVED'
echo '0 passed, 1 failed'
exit 1
RT
printf '%s\n' '#!/usr/bin/env bash' 'sleep 2.5' > "$work/kit/rattle"
chmod +x "$work/kit/rt" "$work/kit/rattle"
status=0
gate > "$work/said" 2>&1 || status=$?
[ "$status" = 1 ] || { echo "a gate that fails: status $status, wanted 1"; failed=1; }
for line in '| low | 0 |  |  | [1-3] |' 'rt: low NOT PROVED' '0 passed, 1 failed' '[0-9]* s in all on [0-9]* processors, by kit one, status 1'; do
    grep -qx "$line" "$work/said" || { echo "a gate that fails: there is no line '$line' in:"; cat "$work/said"; failed=1; }
done
grep -q -- '--crate-name low --anew --empty-contracts$' "$here/out/gate-samples" || { echo 'a gate that fails: its samples:'; cat "$here/out/gate-samples"; failed=1; }
exit "$failed"
