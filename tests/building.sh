#!/usr/bin/env bash
# Where the launcher and tools/library get what they run and print: from out/, from dist/, or by a build; and what tools/dist writes and
# compares. All of it in a folder with small sources and a kit made for this, which proves and builds nothing real. Prints what went wrong;
# the status is 0 if nothing did.
# shellcheck disable=SC2015,SC2016,SC2317
set -euo pipefail
unset AFFEDIT_NO_BUILD AFFEDIT_QUIET
top=$(cd "$(dirname "$0")/.." && pwd)
# Where another user may look in.
work=$(mktemp -d -p /tmp)
trap 'chmod -R u+w "$work"; rm -rf "$work"' EXIT
chmod 755 "$work"
failed=0
# A path with a space.
here="$work/the checkout"
export COUNT=$work/count TMPDIR="$work/temporary files"
mkdir -p "$TMPDIR" "$work/kit/bin" "$work/kit/toolchain/bin" "$work/kit/c"

# The kit. Its `rt ci` says which source the program was made of, and can be held up by a file.
cat > "$work/kit/bin/rt" << 'RT'
#!/usr/bin/env bash
[ "${1:-}" = ci ] || { echo "kit ${KIT_NAME:-one}"; exit 0; }
echo build >> "$COUNT"
for name in crates/*; do echo "rt: ${name##*/} proved"; done
sleep 0.3
while [ -e "$COUNT.hold" ]; do sleep 0.1; done
grep -q broken crates/affedit/src/main.rt && { echo 'a proof is open'; exit 1; }
mkdir -p crates/affedit/out
printf '#!/usr/bin/env bash\necho "affedit: words %s"\nexit 2\n' "$(cat crates/affedit/src/main.rt)" > crates/affedit/out/affedit
chmod +x crates/affedit/out/affedit
RT
cat > "$work/kit/bin/rattle" << 'RATTLE'
#!/usr/bin/env bash
while [ "$1" != -o ]; do shift; done
cat src/lib.rt > "$2"
RATTLE
cat > "$work/kit/toolchain/bin/llvm-ar" << 'AR'
#!/usr/bin/env bash
cat > /dev/null
cat libaffedit_c.a > libaffedit.a
AR
chmod +x "$work"/kit/bin/* "$work/kit/toolchain/bin/llvm-ar"
without_kit=/usr/bin:/bin with_kit=$work/kit/bin:/usr/bin:/bin

# A new checkout: a program and a library for C over one crate, and a crate that neither stands on. DIST, if it is given, is put there.
checkout() {
    rm -rf "$here"
    mkdir -p "$here"/crates/{affedit,affedit_c,low,other}/src "$here/tools"
    cp "$top/affedit" "$top/VERSION" "$here"
    cp -r "$top/tools/launcher" "$top/tools/dist" "$top/tools/library" "$here/tools"
    printf '%s\n' '# Words.' 'low:' 'affedit may_wait=1: low # with a remark' 'affedit_c staticlib: low' 'other: low' > "$here/crates.txt"
    echo 'Handles allowed: none.' > "$here/HANDLES"
    for name in affedit/src/main affedit_c/src/lib low/src/lib other/src/lib; do
        echo "${name%%/*}" > "$here/crates/$name.rt"
    done
    : > "$COUNT"
    [ $# = 0 ] || cp -r "$1" "$here/dist"
}

# expect WHAT STATUS TEXT COMMAND..: the command ends so, and TEXT is in what it says on both outputs.
expect() {
    local what=$1 wanted=$2 text=$3 status=0 said
    shift 3
    said=$("$@" 2>&1) || status=$?
    if [ "$status" != "$wanted" ] || [[ "$said" != *"$text"* ]]; then
        echo "$what: status $status, wanted $wanted with '$text', said: $said"
        failed=1
    fi
}
launch() { PATH=$with_kit "$here/affedit" "$@"; }
alone() { PATH=$without_kit "$here/affedit" "$@"; }
no_build() { AFFEDIT_NO_BUILD=1 launch "$@"; }
dist() { PATH=$with_kit "$here/tools/dist" "$@"; }
# copied: what stands in a copy of the crate `low` to build of, and in its module of tests.
copied() (
    local top=$here
    # shellcheck source=tools/launcher/proving.bash
    . "$here/tools/launcher/proving.bash"
    rm -rf "$work/copied"
    copy_crate "$work/copied" low
    (cd "$work/copied/crates/low/src" && find . -type f | LC_ALL=C sort | tr '\n' ' ' && cat tests.rt)
)
builds() { [ "$(wc -l < "$COUNT")" = "$1" ] || { echo "$2: $(wc -l < "$COUNT") builds, wanted $1"; failed=1; }; }
source_is() { echo "$1" > "$here/crates/affedit/src/main.rt"; }

# ---- a build

checkout
expect 'no kit and no dist/' 125 'there is no program in dist/; to build one, the command rt' alone word
expect 'nothing may be built, and nothing is there' 125 'nothing is to be built' no_build word
expect 'a first launch' 2 'proved 2 of 2 crates' launch word
expect 'a second one' 2 'affedit: words affedit' launch word
expect 'a third one, without the kit' 2 'affedit: words affedit' alone word
builds 1 'three launches'
source_is newer
expect 'nothing may be built, and the program is old' 2 'affedit: words affedit' no_build word
expect 'a changed source without the kit' 125 'there is no program in dist/' alone word
builds 1 'nothing may be built'
expect 'a changed source' 2 'affedit: words newer' launch word
builds 2 'a changed source'
source_is other
touch -d 2000-01-01 "$here/crates/affedit/src/main.rt"
expect 'a changed source with an old time' 2 'affedit: words other' launch word
builds 3 'a changed source with an old time'
touch "$here/crates/affedit/src/main.rt"
expect 'a source with a new time alone' 2 'affedit: words other' alone word
echo changed > "$here/crates/other/src/lib.rt"
expect 'a changed source of another crate' 2 'affedit: words other' alone word
rm "$here/crates/low/src/lib.rt"
expect 'a source that is gone' 125 'there is no program in dist/' alone word
echo low > "$here/crates/low/src/lib.rt"
expect 'a source that is there again' 2 'affedit: words other' alone word
builds 3 'sources that are as they were'
mkdir "$here/crates/low/specs"
echo low > "$here/crates/low/specs/Low.antt"
expect 'a new folder of sources' 2 'affedit: words other' launch word
builds 4 'a new folder of sources'
# No source that stays is as new as the program any more.
sleep 1.2
expect 'the same folder later' 2 'affedit: words other' alone word
rm -r "$here/crates/low/specs"
expect 'a folder of sources that is gone' 125 'there is no program in dist/' alone word
source_is broken
expect 'a broken source' 125 'a proof is open' launch word
expect 'the program from before is still there' 2 'affedit: words other' no_build word
[ -z "$(ls -A "$TMPDIR")" ] || { echo 'builds leave temporary files'; failed=1; }

checkout
launch word > "$work/one" 2>&1 & one=$!
launch word > "$work/two" 2>&1 & two=$!
for each in "$one" "$two"; do
    wait "$each" && status=0 || status=$?
    [ "$status" = 2 ] || { echo "two at once: status $status"; failed=1; }
done
builds 1 'two launches at once'

# Help is printed without a program, on standard output alone, and a wrong command line is reported before a build, once.
checkout
for word in --help -h --version; do
    expect "$word" 0 'affedit' launch "$word"
    [ -z "$(launch "$word" 2>&1 > /dev/null)" ] || { echo "$word: something on standard error"; failed=1; }
done
builds 0 'help and version'
[ "$(launch chek 2>&1 > /dev/null | grep -c 'is no command')" = 1 ] || { echo 'a wrong word before a build is not reported once'; failed=1; }
[ "$(launch chek 2>&1 > /dev/null | grep -c 'is no command')" = 1 ] || { echo 'a wrong word is not reported once'; failed=1; }
builds 1 'a wrong word before a build'
# Without the part that builds, as it is installed, what is there is run.
source_is newer
rm "$here/tools/launcher/building.bash"
expect 'the part that builds is not there' 2 'affedit: words affedit' launch word
rm -rf "$here/out"
expect 'and no program either' 125 'nothing is built here' launch word

# A build that is held up: its sources are changed meanwhile, or it is ended.
checkout
touch "$COUNT.hold"
launch word > "$work/said" 2>&1 & held=$!
until [ -s "$COUNT" ]; do sleep 0.1; done
source_is meanwhile
rm "$COUNT.hold"
wait "$held" && status=0 || status=$?
[ "$status" = 125 ] && grep -q 'were changed while' "$work/said" || { echo "sources that change meanwhile: status $status, said: $(cat "$work/said")"; failed=1; }
touch "$COUNT.hold"
: > "$COUNT"
PATH=$with_kit "$here/affedit" word > "$work/said" 2>&1 & held=$!
until [ -s "$COUNT" ]; do sleep 0.1; done
kill "$held"
wait "$held" && status=0 || status=$?
rm "$COUNT.hold"
[ "$status" != 0 ] && [ -z "$(ls -A "$TMPDIR")" ] || { echo "a build that is ended: status $status, leaves $(ls -A "$TMPDIR")"; failed=1; }

# ---- dist/

checkout
expect 'no dist/' 1 'made of other sources' dist --sources
expect 'tools/dist' 0 'libaffedit.a ' dist
expect 'what it wrote' 0 '' dist --check
[ "$(cut -d ' ' -f 1 "$here/dist/MADE" | xargs)" = 'kit sources affedit libaffedit.a' ] || { echo "MADE has other keys: $(cat "$here/dist/MADE")"; failed=1; }
[ "$(cat "$here/dist/libaffedit.a")" = affedit_c ] || { echo 'the library is another one'; failed=1; }
cp -r "$here/dist" "$work/dist"
kept() { diff -r "$work/dist" "$here/dist" || { echo "$1: dist/ has changed"; failed=1; }; }

checkout "$work/dist"
expect 'dist/ without the kit' 2 'affedit: words affedit' alone word
expect 'dist/ where nothing may be built' 2 'affedit: words affedit' no_build word
expect 'the library of dist/' 0 "$here/out/libaffedit.a" env "PATH=$without_kit" "$here/tools/library"
cmp "$here/dist/libaffedit.a" "$here/out/libaffedit.a" || failed=1
expect 'the version' 0 "affedit $(cat "$top/VERSION")"$'\nkit kit one\nsources '"$(sed -n 's/^sources //p' "$work/dist/MADE")" alone --version
builds 0 'dist/ is there'
source_is newer
expect 'dist/ of other sources' 125 'the sources are not those of the program in dist/; to build one, the command rt' alone word
expect 'the library of other sources' 1 'the command rt of the Rattle kit is needed' env "PATH=$without_kit" "$here/tools/library"
expect 'the version of other sources' 0 'sources ' alone --version
[ "$(alone --version | grep -c '^kit ')" = 0 ] || { echo 'the version of other sources names a kit'; failed=1; }
expect 'dist/ of other sources, with the kit' 2 'affedit: words newer' launch word
echo newer > "$here/crates/affedit_c/src/lib.rt"
expect 'the library of other sources, with the kit' 0 "$here/out/libaffedit.a" env "PATH=$with_kit" "$here/tools/library"
[ "$(cat "$here/out/libaffedit.a")" = newer ] || { echo 'the library was not built anew'; failed=1; }
kept 'builds of other sources'
source_is affedit
echo affedit_c > "$here/crates/affedit_c/src/lib.rt"
expect 'the sources of dist/ again' 2 'affedit: words affedit' alone word

# What the gate refuses, and what it says then.
refused() { expect "$1" 1 "$2; to renew" dist --check; }
checkout "$work/dist"
expect 'dist/ as it is' 0 '' dist --check
for name in affedit libaffedit.a; do
    cp "$work/dist/$name" "$here/dist/$name"
    printf x | dd of="$here/dist/$name" bs=1 seek=3 conv=notrunc status=none
    refused "a byte of $name" "dist/$name is not the file that dist/MADE names"
    # The same with a sum that fits.
    sed "s/^$name .*/$name $(sha256sum < "$here/dist/$name" | cut -d ' ' -f 1)/" "$work/dist/MADE" > "$here/dist/MADE"
    refused "a byte of $name, and its sum" 'dist/ has other bytes than these sources give'
    cp "$work/dist"/* "$here/dist"
done
sed 's/^sources ./sources x/' "$work/dist/MADE" > "$here/dist/MADE"
refused 'a digest of other sources' 'dist/ was made of other sources than these'
cp "$work/dist/MADE" "$here/dist/MADE"
for file in crates.txt crates/affedit/src/main.rt crates/low/src/lib.rt crates/affedit_c/src/lib.rt; do
    echo '# more' >> "$here/$file"
    refused "a change of $file" 'dist/ was made of other sources than these'
    expect "a change of $file, by its digest" 1 'made of other sources' dist --sources
    sed -i '$d' "$here/$file"
done
mkdir "$here/crates/low/specs"
echo more > "$here/crates/low/specs/More.antt"
refused 'a new source' 'dist/ was made of other sources than these'
rm -r "$here/crates/low/specs"
expect 'sources as they were' 0 '' dist --check
echo more >> "$here/crates/other/src/lib.rt"
expect 'a change of another crate' 0 '' dist --sources
mkdir "$here/crates/low/src/tests"
echo more | tee "$here/crates/low/src/tests.rt" > "$here/crates/low/src/tests/more.rt"
expect 'tests beside a crate' 0 '' dist --sources
expect 'a copy without tests' 0 './lib.rt ./tests.rt //! Left out.' copied
rm -r "$here/crates/low/src/tests" "$here/crates/low/src/tests.rt"
# What the gate has left in crates/affedit/out is what is compared.
PATH=$with_kit "$here/affedit" word > /dev/null 2>&1 || true
mkdir -p "$here/crates/affedit/out"
echo another > "$here/crates/affedit/out/affedit"
refused 'another program of the gate' 'dist/ has other bytes than these sources give'
expect 'no kit to compare by' 1 'the command rt of the Rattle kit is needed' env "PATH=$without_kit" "$here/tools/dist" --check
expect 'another kit' 0 'dist/ was made by kit one, and this is kit two' env KIT_NAME=two "PATH=$with_kit" "$here/tools/dist" --check
source_is broken
expect 'sources that are not proved' 1 'a proof is open' dist
kept 'what was refused'

# dist/affedit that is not whole.
checkout "$work/dist"
: > "$here/dist/affedit"
expect 'a damaged program' 125 'dist/affedit is not the file that dist/MADE names' alone word

# ---- a folder that cannot be written, by a user who has no right to

as_other=()
if [ "$(id -u)" = 0 ]; then
    as_other=(setpriv --reuid=65534 --regid=65534 --clear-groups)
fi
checkout
chmod -R a+rX,a-w "$here" "$work/kit"
expect 'a folder that is read only' 125 'cannot be written' "${as_other[@]}" env "PATH=$with_kit" "$here/affedit" word
chmod -R u+w "$here"
checkout "$work/dist"
chmod -R a+rX,a-w "$here"
expect 'a folder that is read only, with dist/' 2 'affedit: words affedit' "${as_other[@]}" env "PATH=$without_kit" "$here/affedit" word
expect 'its library' 0 "$here/dist/libaffedit.a" "${as_other[@]}" env "PATH=$without_kit" "$here/tools/library"
exit "$failed"
