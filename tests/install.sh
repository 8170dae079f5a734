#!/usr/bin/env bash
# What tools/install puts below a prefix, what tools/uninstall leaves there, and what tools/package packs: that it is all there, runs without the sources,
# explains itself, and has one version; that a program in C and the plugins of the editors work by it; and what is refused.
# It is installed from a copy of this checkout in a folder with spaces, which has the builds in dist/ and nothing else, as after a clone. The only
# commands there are those of /usr/bin and /bin, so the kit is none of them. What is missing on this machine is named in lines `skipped: ..`.
# Prints what differs; the status is 0 if nothing does.
set -euo pipefail
shopt -s nullglob
top=$(cd "$(dirname "$0")/.." && pwd)
# Where another user may look in.
work=$(mktemp -d -p /tmp)
trap 'chmod -R u+w "$work"; rm -rf "$work"' EXIT
chmod 755 "$work"
unset AFFEDIT_NO_BUILD AFFEDIT_QUIET DESTDIR SOURCE_DATE_EPOCH DICPATH VIMINIT XDG_CACHE_HOME XDG_CONFIG_HOME XDG_DATA_HOME XDG_STATE_HOME
export HOME=$work/home LC_ALL=C.UTF-8
mkdir "$HOME"
failed=0
copy=$work/a\ copy
version=$(cat "$top/VERSION")
bare=(env -i PATH=/usr/bin:/bin)
# shellcheck source=tests/install/checks.bash
. "$top/tests/install/checks.bash"
# shellcheck source=tests/install/packages.bash
. "$top/tests/install/packages.bash"

# The copy, with the builds of these sources, which are made first if there are none.
copy_checkout() {
    local status=0 program
    "$top/affedit" make 1 1 > /dev/null || status=$?
    [ "$status" -le 1 ] || { echo "there is no program to install: status $status"; exit 1; }
    # shellcheck source=tools/launcher/sources.bash
    . "$top/tools/launcher/sources.bash"
    take affedit
    program=$taken
    mkdir -p "$copy/dist"
    cp "$program" "$copy/dist/affedit"
    cp "$("$top/tools/library")" "$copy/dist/libaffedit.a"
    (cd "$top" && cp -r --parents affedit VERSION CHANGELOG.md NOTICE crates.txt crates/*/{src,specs,proofs} bindings docs editors examples include tools "$copy")
    { echo 'kit of a test'; echo "sources $(digest_of_sources)"; } > "$copy/dist/MADE"
    (cd "$copy/dist" && sha256sum affedit libaffedit.a | sed 's/\(.*\)  \(.*\)/\2 \1/' >> MADE)
}

install_it() { "${bare[@]}" "$copy/tools/install" "$@"; }
uninstall_it() { "${bare[@]}" "$copy/tools/uninstall" "$@"; }

# wanted_files: what is to be installed here; the shared library needs a C compiler.
wanted_files() {
    if "${bare[@]}" bash -c 'command -v cc' > /dev/null; then
        cat "$top/tests/install/files"
    else
        grep -v '^lib/libaffedit\.so' "$top/tests/install/files"
    fi
}

# whole WHAT PREFIX: the files are those that are wanted, and the list of what is to be removed names them.
whole() {
    files_below "$2" > "$work/found"
    { wanted_files; echo lib/affedit/FILES; } | LC_ALL=C sort | same "$1: the files" "$work/found"
    grep -v '/$' "$2/lib/affedit/FILES" | same "$1: the list" "$work/found"
}

# refuses WHAT TEXT COMMAND..: the command ends with 1, says that nothing is installed, and why.
refuses() {
    local status=0
    "${@:3}" > "$work/out" 2>&1 || status=$?
    { [ "$status" = 1 ] && grep -qF 'nothing is installed' "$work/out" && grep -qF -- "$2" "$work/out"; } ||
        wrong "$1: status $status, said: $(cat "$work/out")"
}

copy_checkout
# What docs/LIBRARY.md shows of a program in C.
awk '/^    #include <affedit.h>/ { inside = 1 } inside && /^[^ ]/ { exit } inside { print substr($0, 5) }' "$top/docs/LIBRARY.md" > "$work/example.c"
[ "$(grep -m 1 '^## [0-9]' "$top/CHANGELOG.md")" = "## $version" ] || wrong 'the changelog begins with another version'
grep -m 1 '^## ' "$top/CHANGELOG.md" | grep -qxF -e "## $version" -e '## Unreleased' || wrong 'the changelog has another first section'

# A prefix that is not there yet, in another place afterwards, and removed.
prefix=$work/a\ prefix
expect 'tools/install' 0 install_it "$prefix" <<< "installed: $prefix/bin/affedit"
whole 'what is installed' "$prefix"
runs 'what is installed' "$prefix"
mv "$prefix" "$work/moved"
runs 'what is installed, in another place' "$work/moved"
expect 'tools/uninstall' 0 uninstall_it "$work/moved" <<< "removed: $work/moved/bin/affedit"
[ ! -e "$work/moved" ] || wrong "tools/uninstall leaves: $(find "$work/moved" | head -n 3)"

# A prefix with files of others. An older installation is replaced.
mkdir -p "$prefix/bin" "$prefix/share"
chmod 700 "$prefix/bin"
touch "$prefix/share/letter"
install_it "$prefix" > /dev/null
mkdir "$prefix/lib/affedit/old" "$prefix/lib/affedit/older"
touch "$prefix/lib/affedit/old/file" "$prefix/lib/affedit/older"/{file,notes} "$prefix/bin/affedit-not-ours"
printf 'lib/affedit/%s\n' old/ old/file older/ older/file >> "$prefix/lib/affedit/FILES"
ln -sf /nowhere "$prefix/bin/affedit"
expect 'an installation over an older one' 0 install_it "$prefix" << SAID
kept, since it is not empty: $prefix/lib/affedit/older
installed: $prefix/bin/affedit
SAID
for name in old older/file; do
    [ ! -e "$prefix/lib/affedit/$name" ] || wrong "$name of an older installation is left"
done
runs 'an installation over an older one' "$prefix"
[ "$(stat -c %a "$prefix/bin")" = 700 ] || wrong 'tools/install changes the mode of a folder that was there'
rm "$prefix/lib/affedit/older/notes"
echo a > "$prefix/lib/affedit/notes"
uninstall_it "$prefix" > "$work/said"
files_below "$prefix" | same 'tools/uninstall, with files of others' <(printf '%s\n' bin/affedit-not-ours lib/affedit/notes share/letter)
(cd "$prefix" && find . -type d | LC_ALL=C sort) | same 'tools/uninstall, with folders of others' <(printf '%s\n' . ./bin ./lib ./lib/affedit ./share)

# Lists that are none, or name what is not below the prefix.
expect 'tools/uninstall, again' 1 uninstall_it "$prefix" << SAID
tools/uninstall: there is no $prefix/lib/affedit/FILES, which tools/install writes; nothing is removed
SAID
for line in ../affedit /etc/affedit share/../../affedit '' . / share//letter ./share/letter; do
    printf 'share/letter\n%s\n' "$line" > "$prefix/lib/affedit/FILES"
    expect "a list with $line" 1 uninstall_it "$prefix" << SAID
tools/uninstall: a line of $prefix/lib/affedit/FILES is no path below $prefix: $line
SAID
    refuses "an installation over a list with $line" 'is no path below' install_it "$prefix"
done
[ -e "$prefix/share/letter" ] || wrong 'a file was removed by a list that is refused'

# Below DESTDIR, from another folder.
cd "$work"
expect 'with DESTDIR' 0 "${bare[@]}" 'DESTDIR=a tree' "$copy/tools/install" /usr <<< "installed: $work/a tree/usr/bin/affedit"
whole 'with DESTDIR' "$work/a tree/usr"
"${bare[@]}" 'DESTDIR=a tree' "$copy/tools/uninstall" /usr > "$work/said"
[ -z "$(ls -A 'a tree')" ] || wrong 'tools/uninstall leaves something below DESTDIR'

# Places that cannot be written, and by a user who cannot write into the checkout.
touch "$work/file"
refuses 'a prefix below a file' "$work/file is no folder" install_it "$work/file/prefix"
mkdir -p "$work/taken/bin/affedit"
refuses 'a folder in the place of a file' "$work/taken/bin/affedit is a folder" install_it "$work/taken"
[ -z "$(files_below "$work/taken")" ] || wrong 'something was installed beside a folder in the place of a file'
somebody=()
if [ "$(id -u)" = 0 ]; then
    somebody=(setpriv --reuid 65534 --regid 65534 --clear-groups)
fi
mkdir "$work/closed" "$work/open"
chmod 555 "$work/closed"
chmod 777 "$work/open"
refuses 'a prefix that cannot be written' "$work/closed cannot be written" "${bare[@]}" "${somebody[@]}" "$copy/tools/install" "$work/closed/prefix"
rm -rf "$copy/out"
chmod 555 "$copy"
"${bare[@]}" "${somebody[@]}" "$copy/tools/install" "$work/open/prefix" > "$work/said"
whole 'from a checkout that cannot be written' "$work/open/prefix"
chmod 755 "$copy"

# Without a C compiler all but the shared library is installed.
expect 'without a C compiler' 0 "${bare[@]}" CC=no-such-compiler "$copy/tools/install" "$work/no compiler" << SAID
without libaffedit.so.1: tools/shared-library: there is no C compiler no-such-compiler
installed: $work/no compiler/bin/affedit
SAID
! files_below "$work/no compiler" | grep -q '\.so' || wrong 'without a C compiler a shared library is installed'

# The plugins in the checkout, as their README.md has it, and the provider for Enchant.
printf "vim.opt.runtimepath:append('%s/editors/nvim')\nrequire('affedit').setup({})\n" "$copy" > init.lua
try_nvim 'the checkout' "$copy/affedit" "$copy/examples/sample"
try_emacs 'the checkout' "$copy/affedit" "$copy/examples/sample" "EMACSLOADPATH=$copy/editors/emacs:"
if has_compiler 'the provider for Enchant'; then
    if ! pkg-config --exists enchant-2; then
        skip 'the provider for Enchant' libenchant-2-dev
    else
        expect 'the provider for Enchant' 0 "${bare[@]}" "$copy/bindings/enchant/build" <<< "$copy/out/enchant_affedit.so"
    fi
fi

try_packages

# Without a build of these sources, and without the kit, nothing is installed.
if [ -z "$("${bare[@]}" bash -c 'command -v rt')" ]; then
    rm -rf "$copy/out"
    echo '# changed' >> "$copy/crates.txt"
    refuses 'a source that is changed' 'the sources are not those of the program in dist/' install_it "$work/none"
    if has 'the package' dpkg dpkg-deb; then
        refuses 'a package of a source that is changed' 'the command rt of the Rattle kit is needed' "${bare[@]}" "$copy/tools/package" "$work"
    fi
    rm -r "$copy/dist"
    refuses 'no build' 'there is no program in dist/' install_it "$work/none"
    [ ! -e "$work/none" ] || wrong 'without a build something is installed'
fi
exit "$failed"
