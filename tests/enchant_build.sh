#!/usr/bin/env bash
# How bindings/enchant/build builds, installs and removes the provider for Enchant, without Enchant: the compiler and pkg-config are commands made for
# this, which write down what they are asked. It runs in a copy, whose tools/library names no real file. tests/enchant.sh tries the provider itself.
# Prints what differs; the status is 0 if nothing does.
# shellcheck disable=SC2016,SC2317
set -euo pipefail
top=$(cd "$(dirname "$0")/.." && pwd)
work=$(mktemp -d -p /tmp)
trap 'rm -rf "$work"' EXIT
copy=$work/copy
failed=0
unset CC CPPFLAGS CFLAGS LDFLAGS DESTDIR
mkdir -p "$copy/tools" "$work/bin"
cp -r "$top/bindings" "$top/include" "$copy"
export ASKED=$work/asked MODULES=$work/modules PATH=$work/bin:/usr/bin:/bin

# command_in FILE: a script, which is on standard input.
command_in() { { echo '#!/usr/bin/env bash'; cat; } > "$1" && chmod +x "$1"; }
command_in "$copy/tools/library" <<< 'echo /there/libaffedit.a'
command_in "$work/bin/cc" << 'CC'
printf '%s\n' "${0##*/}" "$@" > "$ASKED"
while [ "$1" != -o ]; do shift; done
echo module > "$2"
CC
cp "$work/bin/cc" "$work/bin/other-cc"
command_in "$work/bin/pkg-config" << 'PKG_CONFIG'
case $1 in
    --exists) [ -z "${NO_ENCHANT-}" ] ;;
    --variable=libdir) [ -n "${NO_ENCHANT-}" ] || echo "$MODULES" ;;
    *) echo '-I/there/include -lenchant-2' ;;
esac
PKG_CONFIG

# expect WHAT STATUS SAID WORD..: bindings/enchant/build ends so, and says that. WORDs with = are of its environment.
expect() {
    local status=0 said
    said=$(env "${@:4}" 2>&1) || status=$?
    if [ "$status" != "$2" ] || [ "$said" != "$3" ]; then
        echo "$1: status $status, wanted $2 with '$3', said: $said"
        failed=1
    fi
}
# asked WHAT: the compiler was asked what is on standard input, a word a line; the name of what it writes ends with a number.
asked() {
    sed "s|$copy|COPY|; s|enchant_affedit\.so\.[0-9]*|MODULE|" "$ASKED" > "$work/words"
    diff - "$work/words" || { echo "$1 differs"; failed=1; }
}
build=$copy/bindings/enchant/build
module=$copy/out/enchant_affedit.so

expect 'a build' 0 "$module" "$build"
asked 'a build' < <(printf '%s\n' cc -O2 -g -Wall -Wextra -Werror -std=c11 -fPIC -shared -fvisibility=hidden -ICOPY/include -o COPY/out/MODULE \
    COPY/bindings/enchant/affedit_provider.c /there/libaffedit.a -I/there/include -lenchant-2 -Wl,--exclude-libs,ALL -Wl,-z,defs)
[ "$(ls "$copy/out")" = enchant_affedit.so ] || { echo "a build leaves: $(ls "$copy/out")"; failed=1; }
expect 'a build of a packager' 0 "$module" 'CC=other-cc --wrapped' 'CPPFLAGS=-DONE -DTWO' 'CFLAGS=-O3  -w' 'LDFLAGS=-Wl,-z,relro -L/there' "$build"
asked 'a build of a packager' < <(printf '%s\n' other-cc --wrapped -DONE -DTWO -O3 -w -std=c11 -fPIC -shared -fvisibility=hidden -ICOPY/include \
    -o COPY/out/MODULE COPY/bindings/enchant/affedit_provider.c /there/libaffedit.a -Wl,-z,relro -L/there -I/there/include -lenchant-2 \
    -Wl,--exclude-libs,ALL -Wl,-z,defs)
expect 'no flags' 0 "$module" CFLAGS= "$build"
[ "$(sed -n 2p "$ASKED")" = -std=c11 ] || { echo "with no flags, the compiler is asked $(sed -n 2p "$ASKED")"; failed=1; }

tree=$work/a\ tree
there=$tree$MODULES/enchant-2/enchant_affedit.so
rm -r "$copy/out"
expect 'an installation without DESTDIR' 0 "installed: $MODULES/enchant-2/enchant_affedit.so" "$build" install
expect 'an installation' 0 "installed: $there" "DESTDIR=$tree" "$build" install
[ "$(cat "$there")" = module ] || { echo 'another file is installed'; failed=1; }
[ "$(stat -c %a "$there")" = 644 ] || { echo "the module has the mode $(stat -c %a "$there")"; failed=1; }
touch "${there%/*}/enchant_hunspell.so"
expect 'a second installation' 0 "installed: $there" "DESTDIR=$tree" "$build" install
[ ! -e "$copy/out" ] || { echo "an installation leaves in the checkout: $(ls "$copy/out")"; failed=1; }
expect 'a removal' 0 "removed: $there" "DESTDIR=$tree" "$build" uninstall
[ "$(ls "${there%/*}")" = enchant_hunspell.so ] || { echo "a removal leaves: $(ls "${there%/*}")"; failed=1; }
expect 'a second removal' 1 "bindings/enchant/build: there is no $there; nothing is removed" "DESTDIR=$tree" "$build" uninstall

expect 'a wrong word' 2 'usage: bindings/enchant/build [install | uninstall]' "$build" remove
expect 'two words' 2 'usage: bindings/enchant/build [install | uninstall]' "$build" install uninstall
expect 'no compiler' 127 'bindings/enchant/build: there is no command no-cc' CC=no-cc "$build"
expect 'no headers' 127 'bindings/enchant/build: the headers of Enchant 2 are not installed' NO_ENCHANT=1 "$build"
expect 'no Enchant' 127 'bindings/enchant/build: pkg-config does not know where Enchant 2 is' NO_ENCHANT=1 "$build" uninstall
exit "$failed"
