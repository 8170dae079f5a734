#!/usr/bin/env bash
# Whether a program in C is answered as it has to be by the library for C that tests/program finds: 102,000 words of three made languages, of which is known
# which are generated; the marks of the same words, with a personal list, beside those of `check`; each cause of a fault; bytes of all kinds as words,
# texts and files; handles; 8 threads with a handle each; and each allocation refused in turn. Then what affedit.h says of words, texts, memory and the
# stack (tests/c/meaning.c, tests/c/limits.c), marks with places in other units (tests/c/units.c), and of what stays from version to version (tests/c/layout.c). The program is built with the sanitizers of addresses and
# of undefined behaviour, and run once more by valgrind, if they are installed. Prints what differs, and what was skipped; the status is 0 if nothing
# differs.
set -euo pipefail
top=$(cd "$(dirname "$0")/.." && pwd)
# shellcheck source=tests/skips.bash
. "$top/tests/skips.bash"
needs cc python3
program=$("$top/tests/program")
library=$("$top/tests/program" libaffedit.a)
work=$(mktemp -d -p /tmp)
trap 'rm -rf "$work"' EXIT
failed=0
cd "$work"

# Allocations go through the test's own functions, which may refuse one.
build() {
    cc -std=c11 -D_GNU_SOURCE -O1 -g -Wall -Wextra -Werror "${@:2}" -I"$top/include" "$top/tests/c/calls.c" "$library" \
        -Wl,--wrap=malloc -Wl,--wrap=realloc -pthread -o "$1"
}
build plain
if has_sanitizers; then
    build calls -fsanitize=address,undefined -fno-sanitize-recover=undefined
else
    skip 'the library for C with sanitizers' "the package $(sanitizers)"
    cp plain calls
fi
cc -Wall -Wextra -Werror -I"$top/include" "$top/tests/c/version.c" "$library" -o version
wanted=$(cat "$top/VERSION")
[ "$(./version)" = "$wanted $wanted $wanted" ] || { echo "the versions of the header and of the library: $(./version), and of VERSION: $wanted"; failed=1; }
# Names that C++ keeps, and headers that a header needs.
if has 'the header in C++' c++; then
    c++ -Wall -Wextra -Werror -fsyntax-only -x c++ "$top/include/affedit.h"
    c++ -std=c++17 -I"$top/include" -Wall -Wextra -Werror -fsyntax-only -x c++ "$top/include/affedit.hpp"
fi
cc -std=c99 -Wall -Wextra -Wpedantic -Werror -fsyntax-only -x c "$top/include/affedit.h"

# ---- the processor: any x86-64, so no instruction is newer than SSE2. An older one takes `tzcnt` for `bsf`, which LLVM allows for.

newer='v[a-z0-9]+|p(shufb|test|insr[bdq]|extr[bdq]|blend(vb|w)|abs[bwd]|alignr|sign[bwd]|mulhrsw|maddubsw|h(add|sub)s?[wd]|(min|max)(s[bd]|u[wd])|mul(ld|dq))'
newer+='|p(mov[sz]x[a-z]+|cmp(eqq|gtq|[ei]str[im])|ackusdw|hminposuw)|blendv?p[sd]|dpp[sd]|round[ps][sd]|insertps|extractps|crc32[bwlq]?|popcnt|lzcnt|lddqu'
newer+='|mov(ddup|shdup|sldup|ntdqa|be)|h(add|sub)p[sd]|addsubp[sd]|mpsadbw|cmpxchg16b|andn|bextr|bls[imrsk]+|bzhi|mulx|pdep|pext|rorx|s(ar|hl|hr)x'
if has 'the instructions of the library' objdump; then
    objdump -d --no-show-raw-insn "$library" | awk -F '\t' 'NF > 1 { split($2, part, " "); print part[1] }' | sort -u > got
    grep -qx 'ret' got || { echo 'no instructions were found in the library'; failed=1; }
    ! grep -xE "$newer" got || { echo 'the library has these instructions, which not every x86-64 has'; failed=1; }
fi

# ---- what stays under the name libaffedit.so.1: the layout of structs, constants and functions

# has_layout FOLDER: whether the header of this folder has the layout that stands in tests/c/layout.c.
has_layout() { cc -std=c11 -Wall -Wextra -Wpedantic -Werror "-I$1" "$top/tests/c/layout.c" "$library" -o layout && ./layout; }
has_layout "$top/include" || { echo 'affedit.h has another layout than tests/c/layout.c'; failed=1; }
# Each constant with its value, and each function, of the header and of the test.
grep -oE '^    AFFEDIT_[A-Z0-9_]+ = [0-9]+|^(uint32_t|size_t|void) affedit_[a-z_]+' "$top/include/affedit.h" | sed 's/^ *//; s/.* affedit_/affedit_/' | sort > wanted
sed -nE 's/^CONSTANT\((AFFEDIT_[A-Z0-9_]+), ([0-9]+)\);/\1 = \2/p; s/^FUNCTION\((affedit_[a-z_]+),.*/\1/p' "$top/tests/c/layout.c" | sort > got
diff wanted got || { echo 'tests/c/layout.c lacks a name of affedit.h, or has one more'; failed=1; }
mkdir other
# Each of these edits of the header changes what stays.
while IFS= read -r edit; do
    sed -E "$edit" "$top/include/affedit.h" > other/affedit.h
    ! cmp -s "$top/include/affedit.h" other/affedit.h || { echo "the header has not what this edits: $edit"; failed=1; }
    ! has_layout other 2> said || { echo "another layout passes: $edit"; failed=1; }
done << 'EDITS'
s/^    bool is_open;/&\n    bool is_shared;/
s/^    void \*held;/&\n    void *more;/
s/^    bool is_open;/    uint32_t is_open;/
s/^#define AFFEDIT_CLOSED_HANDLE .*/#define AFFEDIT_CLOSED_HANDLE { NULL, true }/
s/^    uint32_t cause;/&\n    uint32_t column;/
s/^    uint64_t line;/    uint32_t line;/
s/^    uint32_t file;/    uint32_t cause_;/; s/^    uint32_t cause;/    uint32_t file;/; s/cause_;/cause;/
s/^    uint32_t to;/&\n    uint32_t kind;/
s/^    uint32_t from;/    uint32_t to_;/; s/^    uint32_t to;/    uint32_t from;/; s/to_;/to;/
s/^    uint32_t (from|to);/    uint64_t \1;/
s/AFFEDIT_CLOSED = 9,/AFFEDIT_CLOSED = 11,/
s/AFFEDIT_OWN_FILE = 3/AFFEDIT_OWN_FILE = 4/
s/size_t room,/uint32_t room,/
s/^void affedit_close/uint32_t affedit_close/
EDITS

# same WHAT WANTED GOT: the files are the same.
same() { cmp "$2" "$3" || { echo "$1 differs"; failed=1; }; }

# runs WHAT COMMAND..: it ends with 0, and what it says is told where it does not.
runs() { "${@:2}" > said 2>&1 || { echo "$1: status $?"; tail -n 20 said; failed=1; }; }

python3 "$top/tests/c/languages.py" . 34000
for name in affixes compounds alphabet; do
    ./calls words $name.aff $name.dic $name.words > got || { echo "$name: status $?"; failed=1; }
    same "$name: the answers" $name.want got
    # `check` takes 20,000 lines.
    head -n 20000 $name.words | paste -sd '  ,\n' > $name.text
    "$program" check $name.aff $name.dic $name.text > said || true
    sed '$d' said > wanted
    ./calls check $name.aff $name.dic $name.text > got || { echo "$name: status $?"; failed=1; }
    same "$name: the marks" wanted got
    "$program" check $name.aff $name.dic $name.text --own $name.own > said || true
    sed '$d' said > wanted
    ./calls own $name.aff $name.dic $name.own $name.text > got || { echo "$name: status $?"; failed=1; }
    same "$name: the marks with a list" wanted got
done
./calls threads affixes.aff affixes.dic affixes.own affixes.text > said || { echo "threads: status $?"; failed=1; }
awk '/^-- the threads/ { behind = 1; next } { print > (behind ? "got" : "wanted") }' said
same 'the threads' wanted got
runs 'the handles' ./calls handles
runs 'the bytes' ./calls bytes affixes.aff affixes.dic
for name in affixes compounds alphabet; do
    head -n 30 $name.dic > few.dic
    head -n 40 $name.words > few.words
    runs "$name: memory" ./calls memory $name.aff few.dic $name.own few.words
done

# The sentence for each cause: by the header's name of the cause, that of tools/launcher/causes.
cc -std=c11 -g -Wall -Wextra -Wpedantic -Werror -I"$top/include" "$top/tests/c/causes.c" "$library" -o causes
python3 - "$top" > wanted << 'PYTHON'
import re, sys
rows = [line.rstrip('\n').split('\t') for line in open(f'{sys.argv[1]}/tools/launcher/causes') if '\t' in line]
sentences = {(kind, cause): sentence for kind, cause, sentence in rows}
header = open(f'{sys.argv[1]}/include/affedit.h').read()
for file, kind in enumerate(('aff', 'dic', 'own'), 1):
    print(f'{file} 0 the file has more than 16,777,216 bytes')
    for name, number in re.findall(rf'AFFEDIT_{kind.upper()}_(?!FILE)([A-Z0-9_]+) = (\d+)', header):
        cause = ''.join(part.capitalize() for part in name.split('_'))
        print(f'{file} {number} {sentences.pop((kind, cause))}')
sys.exit(f'without a number: {sentences}' if sentences else 0)
PYTHON
./causes > got || { echo "the sentences: status $?"; failed=1; }
same 'the sentences for causes' wanted got
cc -std=c11 -g -Wall -Wextra -Wpedantic -Werror -I"$top/include" "$top/tests/c/units.c" "$library" -o units
runs 'places in other units' ./units
cc -std=c11 -g -Wall -Wextra -Wpedantic -Werror -I"$top/include" "$top/tests/c/meaning.c" "$library" -o meaning
runs 'what words and texts mean' ./meaning
cc -std=c11 -D_GNU_SOURCE -O1 -g -Wall -Wextra -Werror -I"$top/include" "$top/tests/c/limits.c" "$library" \
    -Wl,--wrap=malloc -Wl,--wrap=realloc -Wl,--wrap=free -pthread -o limits
runs 'memory and the stack' ./limits

# Each cause of a fault, and where it is: the lines of the .aff file, of the .dic file and of a personal list, with bars between lines.
fault() {
    printf '%b' "${1//|/\\n}" > f.aff
    printf '%b' "${2//|/\\n}" > f.dic
    printf '%b' "${3//|/\\n}" > f.own
    : > f.text
    fault_of_files "$4"
}
fault_of_files() {
    "$program" check f.aff f.dic f.text --own f.own > wanted || true
    ./calls own f.aff f.dic f.own f.text > got || true
    if ! cmp -s wanted got || ! grep -qx "$1" got; then
        echo "the fault \`$1\`: \`$(cat got)\`, and by the program \`$(cat wanted)\`"
        failed=1
    fi
}
fault 'SET UTF-8|\xff|' '0|' '' 'aff 2 NotUtf8'
fault 'SET ISO8859-1|' '0|' '' 'aff 1 OtherEncoding'
fault 'SET UTF-8|COMPLEXPREFIXES|' '0|' '' 'aff 2 LeftOut'
fault 'SET UTF-8|NEEDAFFIX|' '0|' '' 'aff 2 MissingField'
fault 'SET UTF-8|KEEPCASE a|KEEPCASE b|' '0|' '' 'aff 3 Twice'
fault 'SET UTF-8|COMPOUNDMIN x|' '0|' '' 'aff 2 BadNumber'
fault 'SET UTF-8|REP 65001|' '0|' '' 'aff 2 TooMany'
fault 'SET UTF-8|REP 2|REP a b|' '0|' '' 'aff 2 TableShort'
fault 'SET UTF-8|FLAG other|' '0|' '' 'aff 2 OtherFlag'
fault 'SET UTF-8|SFX A X 0|' '0|' '' 'aff 2 BadCross'
fault 'SET UTF-8|FLAG num|NEEDAFFIX x|' '0|' '' 'aff 3 BadFlag'
fault 'SET UTF-8|AF 1|AF a|SFX A Y 1|SFX A 0 s/7 .|' '0|' '' 'aff 5 BadAlias'
fault 'SET UTF-8|SFX A Y 1|SFX A 0 s [a|' '0|' '' 'aff 3 BadCondition'
fault 'SET UTF-8|COMPOUNDRULE 1|COMPOUNDRULE *a|' '0|' '' 'aff 3 BadPattern'
fault 'SET UTF-8|' '1|\xc3|' '' 'dic 2 NotUtf8'
fault 'SET UTF-8|' 'word|' '' 'dic 1 BadCount'
fault 'SET UTF-8|IGNORE a|' '1|b|a|' '' 'dic 3 EmptyWord'
fault 'SET UTF-8|FLAG num|' '1|b/x|' '' 'dic 2 BadFlag'
fault 'SET UTF-8|AF 1|AF a|' '1|b/2|' '' 'dic 2 BadAlias'
fault 'SET UTF-8|' '1|b|' 'a|\xe4|' 'own 2 NotUtf8'
fault 'SET UTF-8|' '1|b|' 'a||*|' 'own 3 EmptyWord'
seq 10001 > f.own
fault_of_files 'own 10001 TooMany'
: > f.own
seq 0 1000001 > f.dic
fault_of_files 'dic 1000002 TooMany'
for file in aff dic own; do
    printf 'SET UTF-8\n' > f.aff
    printf '0\n' > f.dic
    : > f.own
    head -c 16777217 /dev/zero | tr '\0' '\n' >> f.$file
    ./calls own f.aff f.dic f.own f.text > got || true
    [ "$(cat got)" = 'limit 16777216' ] || { echo "a large .$file file: $(cat got)"; failed=1; }
done

has 'the library for C by valgrind' valgrind || exit "$failed"
watched=(valgrind -q --error-exitcode=9 --leak-check=full --show-leak-kinds=all --errors-for-leak-kinds=all ./plain)
head -n 40 alphabet.text > few.text
runs 'valgrind: the handles' "${watched[@]}" handles
runs 'valgrind: threads' "${watched[@]}" threads alphabet.aff alphabet.dic alphabet.own few.text
runs 'valgrind: memory' "${watched[@]}" memory alphabet.aff few.dic alphabet.own few.words
exit "$failed"
