#!/usr/bin/env bash
# What README.md shows, and the scripts in `examples/` on a text with addresses, by the program that tests/program finds. And whether the
# documents say the same of commands and statuses. What needs Perl or Python 3 is skipped without. Prints what differs; the status is 0 if
# nothing does.
# shellcheck disable=SC2016,SC2317
set -euo pipefail
top=$(cd "$(dirname "$0")/.." && pwd)
# shellcheck source=tests/skips.bash
. "$top/tests/skips.bash"
# Nothing is built here.
export AFFEDIT_NO_BUILD=1
"$top/tests/program" > /dev/null
work=$(mktemp -d)
trap 'rm -rf "$work"' EXIT
cd "$top"
export AFFEDIT_QUIET=1
failed=0

# expect WHAT STATUS COMMAND..: the command ends so, and prints what stands on standard input.
expect() {
    local what=$1 wanted=$2 status=0
    shift 2
    cat > "$work/wanted"
    "$@" > "$work/out" || status=$?
    if [ "$status" != "$wanted" ] || ! diff "$work/wanted" "$work/out"; then
        echo "$what: status $status, wanted $wanted"
        failed=1
    fi
}
check() { ./affedit check examples/sample.aff examples/sample.dic "$1"; }
without() { { check "$1" || true; } | examples/without-addresses "$1"; }

# Each block of README.md is a command that is run here, or what the command before it prints; or it is a picture: of the parts, or of a
# terminal, as editors/README.md has it. The tests and the gate themselves are not run from here.
declare -A ends=(
    ['./affedit check examples/sample.aff examples/sample.dic examples/sample.txt']=1
    ['tools/affedit-check -d examples/sample examples/sample.txt']=1
    ["echo 'Dear reader, the quikc brown fox jumps over the lazy dog.' | tools/affedit-check -d en_US"]=1
    ['./affedit forms examples/sample.aff examples/sample.dic | tail -n 3']=0
    ["printf 'ins 1 hello wrld\\nsettle\\nshow\\n' | ./affedit edit crates/affedit/data/a.aff crates/affedit/data/a.dic"]=0
)
terminal=$(awk '/^    / { print substr($0, 5) }' editors/README.md | head -n 2 | tr '\n' '\037')
# The blocks, one a line, with a byte 1F where a line of a block ends.
# can_run COMMAND: whether this machine has what a command of README.md needs; reports what is skipped if not.
can_run() {
    [[ $1 != *tools/affedit-check* ]] || has "README.md: $1" python3 || return
    if [[ $1 == *'-d en_US' ]] && ! has_english; then
        skip "README.md: $1" 'the package hunspell-en-us'
        return 1
    fi
}
mapfile -t blocks < <(awk '/^    / { printf "%s%s", inside ? "\037" : "", substr($0, 5); inside = 1; next } inside { print ""; inside = 0 } END { if (inside) print "" }' README.md)
command=''
for block in "${blocks[@]}"; do
    first=${block%%$'\037'*}
    if [ -n "${ends[$first]-}" ]; then
        command=$first
        [ "$block" = "$first" ] || { echo "README.md: a command that is not run: $block"; failed=1; }
    elif [ -n "$command" ]; then
        ! can_run "$command" || expect "README.md: $command" "${ends[$command]}" bash -c "$command" <<< "${block//$'\037'/$'\n'}"
        unset 'ends[$command]'
        command=''
    elif [[ $first != +--* && $block != "${terminal%?}" && ! $block =~ ^bash\ (tests|\.ci)/run$ ]]; then
        echo "README.md: a block that is not run: $first"
        failed=1
    fi
done
[ ${#ends[@]} = 0 ] || { echo "README.md has not got: ${!ends[*]}"; failed=1; }

# What README.md says of the limits of a text: each line has the command without the limit.
for limit in 20000 65536; do
    awk '/^## / { inside = /Limits/ } inside' README.md | grep "limit $limit.*affedit-check" > /dev/null || { echo "README.md has no way out of limit $limit"; failed=1; }
done

# One table says what the commands are, and one what the statuses are. README.md, the manual page, --help and docs/CONSOLE.md say the same.
rows() { grep -v '^#' "tools/launcher/$1"; }
# same WHAT FILE: this file has what stands on standard input.
same() { diff - "$2" > "$work/diff" || { echo "$1:"; cat "$work/diff"; failed=1; }; }
# table FILE HEAD: the rows of the table with this head in a document.
table() { awk -v head="$2" '$0 == head { inside = 1; next } inside && !/^\|/ { exit } inside && !/^\|-/ { print }' "$1"; }
rows commands | awk -F '\t' '{ printf "| `%s` | %s |\n", $1, $2 }' | same 'the commands of README.md' <(table README.md '| command | what it does |')
as_rows() { awk -F '\t' '{ printf "| %s | %s | %s |\n", $1, $2, $3 }'; }
rows statuses | as_rows | same 'the statuses of README.md' <(table README.md '| status | when | last line |')
rows statuses | awk -F '\t' '$4 ~ /edit/ && $1 != 125' | as_rows | same 'the statuses of docs/CONSOLE.md' <(table docs/CONSOLE.md '| status | when | last line |')
./affedit --help > "$work/help"
{ rows commands | awk -F '\t' '{ print "affedit " $1; print "        " $2 }'; rows statuses | awk -F '\t' '{ printf "%-6s  %s; %s\n", $1, $2, $3 }'; } > "$work/wanted"
grep -Fxf "$work/wanted" "$work/help" | same 'the commands and statuses of --help' "$work/wanted"
# In the manual page what stands between signs ` is a literal, with the sign behind it as an argument of its own.
rows statuses | awk -F '\t' '
function emit(said,    parts, count, place, text, sign) {
    count = split(said, parts, "`")
    for (place = 1; place <= count; place++) {
        text = parts[place]
        sign = substr(parts[place + 1], 1, 1)
        if (place % 2 == 0 && sign ~ /[,.;:]/) {
            print ".Ql " text " " sign
            parts[place + 1] = substr(parts[place + 1], 2)
        } else if (place % 2 == 0) {
            print ".Ql " text
        } else {
            gsub(/^ +| +$/, "", text)
            if (text != "") print text
        }
    }
}
{
    print ".It " $1
    emit(toupper(substr($2, 1, 1)) substr($2, 2) ".")
    emit("Last line: " $3 ".")
}' | same 'the statuses of the manual page' <(awk '/^\.Sh EXIT STATUS/ { inside = 1 } inside && /^\.El/ { exit } inside && body { print } inside && /^\.Bl/ { body = 1 }' docs/affedit.1)

# Each definition that docs/PROOFS.md asks to be read stands in the file that it names, and each crate is told of.
while IFS='|' read -r _ names file _; do
    file=crates/$(tr -d ' `' <<< "$file")
    for name in $(grep -oE '[A-Za-z_]+' <<< "$names"); do
        grep -qE "^(unfoldable|abbrev|data|record|pub data|pub record).* $name( |$)" "$file" || { echo "docs/PROOFS.md: there is no $name in $file"; failed=1; }
    done
done < <(table docs/PROOFS.md '| definition | file under `crates/` | what it says | example |')
for crate in crates/*/; do
    crate=$(basename "$crate")
    grep -qF "\`$crate\`" docs/PROOFS.md || { echo "docs/PROOFS.md does not tell of $crate"; failed=1; }
done

# The row that docs/CONTRIBUTING.md shows, run by the program.
awk '/^### A row without a proof/ { inside = 1 } /^## / { inside = 0 } inside && /^    / { print substr($0, 5) }' docs/CONTRIBUTING.md | sed 's|tests/rows|"$TOP/tests/rows"|' > "$work/row.sh"
[ "$(wc -l < "$work/row.sh")" = 2 ] || { echo 'docs/CONTRIBUTING.md shows no row'; failed=1; }
tried() { (cd "$work" && TOP=$top bash row.sh); }
if has 'a row without a proof' python3; then
    expect 'a row without a proof' 0 tried <<< '2 runs, 0 left to `rt try --test`, 0 failed'
fi

# The rows of docs/DECISIONS.md.
awk '/^        / { print substr($0, 9) }' docs/DECISIONS.md > "$work/rows"
if has 'the rows of docs/DECISIONS.md' python3; then
    expect 'the rows of docs/DECISIONS.md' 0 tests/rows "$work/rows" <<< '4 runs, 0 left to `rt try --test`, 0 failed'
fi

# The dialogue for plugins in docs/CONSOLE.md: what is sent stands behind `> `.
awk '/^## / { inside = /^## For authors/ } inside && /^    / { print substr($0, 5) }' docs/CONSOLE.md > "$work/block"
[ -s "$work/block" ] || { echo 'docs/CONSOLE.md has no dialogue for plugins'; failed=1; }
sed -n 's/^> //p' "$work/block" > "$work/sent"
dialogue() { ./affedit edit crates/affedit/data/a.aff crates/affedit/data/a.dic < "$work/sent"; }
expect 'a dialogue for plugins' 0 dialogue < <(grep -v '^> ' "$work/block")

# The slips of docs/CONSOLE.md: each line that is sent is no command, and each that was meant is one.
slips() { table docs/CONSOLE.md '| sent | what was wrong | meant |' | sed -n 's/^| `\([^`]*\)` | .* | `\([^`]*\)` |$/'"$1"'/p'; }
answers() { while IFS= read -r line; do printf '%b\n' "$line"; done | ./affedit edit examples/sample.aff examples/sample.dic; }
sent() { slips '\1' | answers; }
meant() { slips '\2' | answers | grep -v '^no Command$'; }
expect 'ten slips' 0 sent < <(printf 'no Command\n%.0s' {1..10})
expect 'what was meant by them' 0 meant << 'ANSWERS'
no Place 0
text 0 dict 0
.
ok 0
text 0 dict 0
.
no Place 0
ok 1
ok 2
ok 3
no Missing
ok 4
ANSWERS

# The client of docs/CONSOLE.md, whose first line prints the others; with more answers than a pipe holds; and with a dictionary that is refused.
awk '/^## / { inside = /^## A client/ } inside && /^    / { print substr($0, 5) }' docs/CONSOLE.md > "$work/block"
client() { eval "$(head -n 1 "$work/block")"; }
printf 'the citys, who %s\n' {1..20000} > "$work/many"
printf 'SET ISO8859-1\n' > "$work/bad.aff"
if has 'a client in Python' python3; then
    expect 'a client in Python' 0 client < <(tail -n +2 "$work/block")
    expect 'a client with a long text' 0 timeout 60 examples/edit-client examples/sample.{aff,dic} "$work/many" < <(
        echo 'text 20000 dict 0'
        check "$work/many" | awk 'NF == 4 { print $1 ":" $2 + 1 ": " $4 }'
    )
    expect 'a client whose dictionary is refused' 3 examples/edit-client "$work/bad.aff" examples/sample.dic "$work/many" 2> "$work/errors" < /dev/null
    grep -qxF 'edit-client: aff 1 OtherEncoding' "$work/errors" || { cat "$work/errors"; failed=1; }
fi

# The lines of words in docs/PIPE.md. The empty line behind an answer ends no block there.
awk '/^## An example/ { inside = 1; next } /^## / { inside = 0 } inside && /^    / { while (empty > 0) { print ""; empty-- } print substr($0, 5); begun = 1 } inside && /^ *$/ && begun { empty++ }' docs/PIPE.md > "$work/block"
sed -n 's/^> //p' "$work/block" > "$work/sent"
[ -s "$work/sent" ] || { echo 'docs/PIPE.md has no lines of words'; failed=1; }
piped() { ./affedit pipe examples/sample.aff examples/sample.dic < "$work/sent"; }
expect 'lines of words' 0 piped < <(grep -v '^> ' "$work/block"; echo)

# The set-up for Emacs in docs/PIPE.md, whose first line prints the others, and whose folder is /path/of.
awk '/^## For programs that run ispell/ { inside = 1; next } /^## / { inside = 0 } inside && /^    / { print substr($0, 5) }' docs/PIPE.md > "$work/block"
set_up() { eval "$(head -n 1 "$work/block")" | sed "s|$top/|/path/of/|g"; }
if has 'the set-up for Emacs' python3; then
    expect 'the set-up for Emacs' 0 set_up < <(tail -n +2 "$work/block")
fi

# The pipes of the manual page: what they print, and what an error does to them.
[ "$(grep -c '^\.Dl \$ affedit check en_US.aff en_US.dic letter | awk \\(aqNF == 4 { print \$1 }\\(aq | uniq$' docs/affedit.1)" = 1 ] || { echo 'the pipe of the manual page is another'; failed=1; }
printf 'the citys, the citys\nwho\nan order\n' > "$work/text"
marked() { check "$1" | awk 'NF == 4 { print $1 }' | uniq; }
expect 'the lines with a mark' 1 marked "$work/text" <<< $'1\n3'
printf 'who\n\xff\n' > "$work/text"
expect 'the lines with a mark of a text that is refused' 4 marked "$work/text" < /dev/null
expect 'the lines with a mark of a text that is not there' 5 marked "$work/none" < /dev/null

expect 'all forms' 0 ./affedit forms examples/sample.aff examples/sample.dic << 'FORMS'
2nd
cities
city
fox
foxs
in
order
orders
read
reads
reorder
reorders
reread
rereads
the
was
who
17 forms
FORMS

# A personal list.
echo citys > "$work/words"
expect 'a personal list' 0 ./affedit check examples/sample.aff examples/sample.dic examples/sample.txt --own "$work/words" <<< '0 of 15'

# What the linter tells of one.
printf 'citys\n*\n' > "$work/words"
if has 'what the linter says of a personal list' python3; then
    expect 'a bad personal list' 1 tools/lint-dictionary examples/sample.aff examples/sample.dic "$work/words" << TOLD
$work/words:2: EmptyWord
    the line:  *
    leave it out by:  LC_ALL=C sed -i 2d $work/words
TOLD
fi

printf '\xef\xbb\xbfwho reads https://example.org/citys, name@citys.net or the\n~/citys/orders --citys, x86 and the citys\n' > "$work/text"
expect 'all marks' 1 check "$work/text" << 'MARKS'
1 10 15 https
1 18 25 example
1 26 29 org
1 30 35 citys
1 37 41 name
1 42 47 citys
1 48 51 net
1 52 54 or
2 2 7 citys
2 17 22 citys
2 24 27 x86
2 28 31 and
2 36 41 citys
13 of 18
MARKS
# Two scripts are in Perl, and are the last that is tried.
has 'the scripts in-color and without-addresses' perl || exit "$failed"
expect 'without addresses' 1 without "$work/text" << 'MARKS'
1 52 54 or
2 28 31 and
2 36 41 citys
3 of 18
MARKS
# Marks without addresses, in color.
seen() { { without "$1" || true; } | examples/in-color "$1"; }
red=$'\e[4;31m'
plain=$'\e[0m'
expect 'in color' 1 seen "$work/text" << MARKS
who reads https://example.org/citys, name@citys.net ${red}or$plain the
~/citys/orders --citys, x86 ${red}and$plain the ${red}citys$plain
MARKS
# Both print the same of standard input, without an operand for it or with -, and of a FILE, by a `check` of their own. The text is longer than a pipe.
{ cat "$work/text"; printf 'who who who, who who who, who who %s\n' {1..3000}; echo 'the citys, a/b'; } > "$work/long"
by_itself() {
    local script=$1
    shift
    "examples/$script" examples/sample.aff examples/sample.dic "$@"
}
by_pipe() { cat "$work/long" | by_itself "$@"; }
for operand in '' -; do
    # shellcheck disable=SC2086
    expect "standard input without addresses, by ${operand:-no operand}" 1 by_pipe without-addresses $operand < <(without "$work/long")
    # shellcheck disable=SC2086
    expect "standard input in color, by ${operand:-no operand}" 1 by_pipe in-color $operand < <(check "$work/long" | examples/in-color "$work/long")
done
expect 'a file without addresses, by the dictionary' 1 by_itself without-addresses "$work/text" < <(without "$work/text")
expect 'a file in color, by the dictionary' 1 by_itself in-color "$work/text" < <(check "$work/text" | examples/in-color "$work/text")
faulty() { printf 'who\n\xff\n' | by_itself "$@"; }
expect 'standard input that is refused, without addresses' 3 faulty without-addresses <<< 'doc 2'
expect 'standard input that is refused, in color' 3 faulty in-color <<< 'doc 2'
refused() { { ./affedit check "$work/bad.aff" examples/sample.dic "$work/text" || true; } | examples/"$1" "$work/text"; }
expect 'a refusal, without addresses' 3 refused without-addresses <<< 'aff 1 OtherEncoding'
expect 'a refusal, in color' 3 refused in-color <<< 'aff 1 OtherEncoding'
exit "$failed"
