#!/usr/bin/env bash
# The shared library, and the examples in C, C++ and Python over it and over the archive: that the library exports the functions of the header and nothing
# else, has its name, and has the same bytes when it is made again; that each example is compiled without a warning, and prints the marks that are due by
# line and column; and what affedit.hpp throws and moves. Those in C and C++ are run by valgrind too. Prints what differs, and what was skipped; the status
# is 0 if nothing differs.
# shellcheck disable=SC2317
set -euo pipefail
top=$(cd "$(dirname "$0")/.." && pwd)
# shellcheck source=tests/skips.bash
. "$top/tests/skips.bash"
needs cc
archive=$("$top/tests/program" libaffedit.a)
work=$(mktemp -d -p /tmp)
trap 'rm -rf "$work"' EXIT
failed=0
cd "$work"
unset CC LDFLAGS

# expect WHAT STATUS COMMAND..: the command ends so, and prints what stands on standard input.
expect() {
    local what=$1 wanted=$2 status=0
    shift 2
    cat > wanted
    "$@" > got 2> said < /dev/null || status=$?
    if ! diff wanted got || [ "$status" != "$wanted" ]; then
        echo "$what: status $status, wanted $wanted: $(head -n 5 said)"
        failed=1
    fi
}

# ---- the shared library

shared=$("$top/tools/shared-library" one)
[ "$shared" = "$work/one/libaffedit.so.1" ] || { echo "the shared library is $shared"; failed=1; }
[ "$(readlink one/libaffedit.so)" = libaffedit.so.1 ] || { echo 'its link leads elsewhere'; failed=1; }
"$top/tools/shared-library" two > /dev/null
cmp one/libaffedit.so.1 two/libaffedit.so.1 || { echo 'the shared library has other bytes when it is made again'; failed=1; }
exported() { nm -D --defined-only "$shared" | awk '{ print $2, $3 }' | LC_ALL=C sort; }
expect 'the names that it exports' 0 exported < <(grep -oE '^(uint32_t|size_t|void) affedit_[a-z_]+' "$top/include/affedit.h" | sed 's/.* /T /' | LC_ALL=C sort)
readelf -d "$shared" > dynamic
grep -q 'SONAME.*\[libaffedit\.so\.1\]' dynamic || { echo 'the shared library has another name'; failed=1; }
[ "$(grep -o 'NEEDED.*' dynamic | grep -o '\[.*')" = '[libc.so.6]' ] || { echo "it needs: $(grep NEEDED dynamic)"; failed=1; }
! grep -q TEXTREL dynamic || { echo 'its code is relocated'; failed=1; }
expect 'no compiler' 127 env CC=no-such-compiler "$top/tools/shared-library" three < /dev/null
[ ! -e three ] || { echo 'without a compiler something is made'; failed=1; }

# ---- the examples

warnings=(-Wall -Wextra -Wpedantic -Werror)
examples=$top/examples/c
sample=$top/examples/sample
flags=("-I$top/include" "${warnings[@]}" -O1 -g -pthread)
printf 'who \xc3\xbcnd citys\r\n\n\xc3\xb6nder the\torders, e\xcc\x81x' > text
printf 'a \xff\n' > bytes
: > empty
marks=$'1:5: ünd\n1:9: citys\n3:1: önder\n3:19: e\u0301x'

# checks WHAT COMMAND..: the command, with the names of three files behind it, prints marks as the examples do.
checks() {
    expect "$1: the sample" 1 "${@:2}" "$sample.aff" "$sample.dic" "$sample.txt" <<< '2:31: citys'
    expect "$1: columns" 1 "${@:2}" "$sample.aff" "$sample.dic" text <<< "$marks"
    expect "$1: an empty file" 0 "${@:2}" "$sample.aff" "$sample.dic" empty < /dev/null
    expect "$1: no UTF-8" 2 "${@:2}" "$sample.aff" "$sample.dic" bytes < /dev/null
    expect "$1: a fault" 2 "${@:2}" "$sample.aff" "$sample.txt" text < /dev/null
    expect "$1: no file" 2 "${@:2}" "$sample.aff" "$sample.dic" none < /dev/null
    expect "$1: no words" 2 "${@:2}" < /dev/null
}

# shares WHAT COMMAND..: the same of the example with threads.
shares() {
    expect "$1: files at once" 1 "${@:2}" "$sample.aff" "$sample.dic" text "$sample.txt" empty text <<< $'text: 4\n'"$sample.txt"$': 1\nempty: 0\ntext: 4'
    expect "$1: no marks" 0 "${@:2}" "$sample.aff" "$sample.dic" empty <<< 'empty: 0'
    expect "$1: no UTF-8" 2 "${@:2}" "$sample.aff" "$sample.dic" bytes empty <<< 'empty: 0'
}

export LD_LIBRARY_PATH=$work/one
libraries=(one/libaffedit.so "$archive")
by=(the-shared-library the-archive)
for i in 0 1; do
    cc -std=c11 "${flags[@]}" "$examples/check_file.c" "${libraries[i]}" -o "check.$i"
    cc -std=c11 "${flags[@]}" "$examples/share_handle.c" "${libraries[i]}" -o "share.$i"
    checks "${by[i]}" "./check.$i"
    shares "${by[i]}" "./share.$i"
done
if has 'the examples in C++' c++; then
    c++ -std=c++17 "${flags[@]}" "$examples/check_file.cpp" one/libaffedit.so -o check.cpp
    c++ -std=c++17 "${flags[@]}" "$top/tests/c/moves.cpp" one/libaffedit.so -o moves
    checks 'C++' ./check.cpp
    expect 'affedit.hpp' 0 ./moves < /dev/null
fi
if has 'the example in Python' python3; then
    checks Python python3 "$examples/check_file.py" "$shared"
fi
if has 'the examples in C by valgrind' valgrind; then
    watched=(valgrind -q --error-exitcode=9 --leak-check=full --show-leak-kinds=all --errors-for-leak-kinds=all)
    expect 'valgrind: C' 1 "${watched[@]}" ./check.1 "$sample.aff" "$sample.dic" text <<< "$marks"
    expect 'valgrind: threads' 1 "${watched[@]}" ./share.1 "$sample.aff" "$sample.dic" text "$sample.txt" <<< $'text: 4\n'"$sample.txt: 1"
    [ ! -x moves ] || expect 'valgrind: C++' 0 "${watched[@]}" ./moves < /dev/null
fi
exit "$failed"
