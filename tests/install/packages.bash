# The packages: made without the kit, twice, compared with lists, unpacked and used, and put below a folder by dpkg and purged; and which are made where
# something is missing. Needs what tests/install/checks.bash needs, and that.
# shellcheck shell=bash disable=SC2154

triplet=x86_64-linux-gnu
packager=(DEBEMAIL=packager@example.org 'DEBFULLNAME=A Packager')

try_packages() {
    local names=(affedit libaffedit1 libaffedit-dev enchant-2-affedit) name
    has 'the packages' dpkg dpkg-deb && has 'the packages' gcc cc || return 0
    if ! has 'the package enchant-2-affedit' dpkg-dev dpkg-shlibdeps; then
        names=("${names[@]::3}")
    elif ! pkg-config --exists enchant-2 glib-2.0 gmodule-2.0 2> /dev/null; then
        skip 'the package enchant-2-affedit' libenchant-2-dev
        names=("${names[@]::3}")
    fi
    make_twice
    for name in "${names[@]}"; do
        look_into "$name"
    done
    dpkg --compare-versions "$version" gt 0+git20991231.235959.fffffff || wrong 'packages of earlier commits have a higher version'
    # For programs in C two packages are enough.
    mkdir "$work/two"
    dpkg-deb -x "$(deb libaffedit1)" "$work/two"
    dpkg-deb -x "$(deb libaffedit-dev)" "$work/two"
    if has_compiler 'a C program by pkg-config'; then
        links 'the packages for C' "$work/two/usr/lib/$triplet" "$work/two/usr/share/doc/libaffedit-dev/examples" "$copy/examples/sample"
    fi
    depend_rightly
    install_packages
    try_lintian
    try_without
}

# deb NAME [FOLDER]: the file of this package.
deb() { echo "${2:-$work/packages}/${1}_${version}_amd64.deb"; }

# packages_of FOLDER: the files that are to be printed.
packages_of() {
    local name
    for name in "${names[@]}"; do
        deb "$name" "$1"
    done
}

# make_twice: the packages are made, and once more from another folder, at another time, and by a user with other settings. They have the same bytes.
make_twice() {
    local name elsewhere=$work/elsewhere
    mkdir "$work/packages" "$work/again"
    expect 'the packages' 0 "${bare[@]}" "${packager[@]}" SOURCE_DATE_EPOCH=1000000000 "$copy/tools/package" "$work/packages" < <(packages_of "$work/packages")
    cp -r "$copy" "$elsewhere"
    # Outside git the time is that of the file VERSION.
    touch -d @1000000000 "$elsewhere/VERSION"
    cd "$work/again" || return
    (umask 077 && "${bare[@]}" "${packager[@]}" TZ=Asia/Tokyo LC_ALL=C.UTF-8 HOME=/nowhere "$elsewhere/tools/package") > "$work/said" 2>&1 ||
        wrong 'packages cannot be made again'
    packages_of "$work/again" | same 'the packages that are made again' "$work/said"
    for name in "${names[@]}"; do
        cmp "$(deb "$name")" "$(deb "$name" "$work/again")" || wrong "$name has other bytes when it is made again"
    done
    cd "$work" || return
    rm -rf "$elsewhere"
}

# files_of NAME: the files of this package, from /usr: those of the list, and of affedit those of tools/install that no other package has.
files_of() {
    if [ "$1" = affedit ]; then
        sed '/^include/d; /^lib\/libaffedit/d; /^lib\/pkgconfig/d; /^lib\/affedit\/examples\/c\//d; /LIBRARY\.md$/d
            /^share\/man/ s|$|.gz|; s|changelog$|changelog.gz|; s|zsh/site-functions|zsh/vendor-completions|' "$top/tests/install/files"
        printf '%s\n' share/doc/affedit/copyright share/lintian/overrides/affedit
    else
        sed -n "s/^$1 //p" "$top/tests/install/packages"
    fi | LC_ALL=C sort
}

# look_into NAME: the package is unpacked below a new folder: its listing, its files, sums, changelog and licenses are as they have to be.
look_into() {
    local name=$1 package root=$work/unpacked/$1 documents
    package=$(deb "$name")
    documents=$root/usr/share/doc/$name
    # All belongs to root, has the same time, and no mode but these.
    TZ=UTC dpkg-deb --contents "$package" | awk '{ print $1, $2, $4, $5 }' | sort -u |
        grep -vxE '(drwxr-xr-x|-rw-r--r--|-rwxr-xr-x|lrwxrwxrwx) root/root 2001-09-09 01:46' && wrong "$name: other modes, owners or times"
    mkdir -p "$root"
    dpkg-deb -x "$package" "$root"
    dpkg-deb -e "$package" "$work/unpacked/$name.control"
    [ "$(ls "$root")" = usr ] || wrong "$name: what it has beside usr: $(ls "$root")"
    files_of "$name" | same "$name: the files" <(files_below "$root/usr")
    (cd "$root" && md5sum --quiet -c "../$name.control/md5sums") || wrong "$name: its sums"
    zcat "$documents/changelog.gz" | same "$name: the changelog" "$copy/CHANGELOG.md"
    head -n 2 "$documents/copyright" | same "$name: the license" <(printf '%s\n' \
        'No license is given for Affedit itself yet. It is made of parts of others, which are below.' \
        'On Debian the Apache License, Version 2.0, is /usr/share/common-licenses/Apache-2.0.')
    tail -n +4 "$documents/copyright" | same "$name: the licenses of others" "$copy/NOTICE"
    ! grep -rqF -e "$top" -e "$copy" -e "$work/elsewhere" "$root" || wrong "$name names the folder of the sources"
    expect "$name: its fields" 0 dpkg-deb --field "$package" Package Version Architecture Maintainer << FIELDS
Package: $name
Version: $version
Architecture: amd64
Maintainer: A Packager <packager@example.org>
FIELDS
}

# needs_of NAME FILE: what dpkg-shlibdeps names for a file that is unpacked.
needs_of() {
    mkdir -p "$work/debian"
    printf 'Source: affedit\n\nPackage: %s\nArchitecture: amd64\n' "$1" > "$work/debian/control"
    (cd "$work" && dpkg-shlibdeps -O "unpacked/$1/usr/$2" 2> "$work/said") | sed 's/^shlibs:Depends=//'
}

# depend_rightly: what the packages depend on.
depend_rightly() {
    local libraries=lib/$triplet
    expect 'libaffedit-dev: what it depends on' 0 dpkg-deb --field "$(deb libaffedit-dev)" Depends <<< "libaffedit1 (= $version)"
    same 'libaffedit1: what links it depends on' "$work/unpacked/libaffedit1.control/shlibs" <<< "libaffedit 1 libaffedit1 (>= $version)"
    same 'libaffedit1: its triggers' "$work/unpacked/libaffedit1.control/triggers" <<< 'activate-noawait ldconfig'
    has 'what the packages depend on' dpkg-dev dpkg-shlibdeps || return 0
    expect 'libaffedit1: what it depends on' 0 dpkg-deb --field "$(deb libaffedit1)" Depends < <(needs_of libaffedit1 "$libraries/libaffedit.so.1")
    expect 'affedit: what it depends on' 0 dpkg-deb --field "$(deb affedit)" Depends < <(echo "coreutils (>= 8.31), $(needs_of affedit lib/affedit/out/affedit)")
    if [[ " ${names[*]} " == *' enchant-2-affedit '* ]]; then
        expect 'enchant-2-affedit: what it depends on' 0 dpkg-deb --field "$(deb enchant-2-affedit)" Depends \
            < <(needs_of enchant-2-affedit "$libraries/enchant-2/enchant_affedit.so")
        [[ $(dpkg-deb --field "$(deb enchant-2-affedit)" Depends) == *libenchant-2-2* ]] || wrong 'enchant-2-affedit does not depend on Enchant'
        load_provider "$work/unpacked/enchant-2-affedit/usr/$libraries/enchant-2"
    fi
}

# load_provider FOLDER: the provider there has no name but that which Enchant looks for, and Enchant loads it, if this system allows a namespace in which the
# folder is mounted over that of Enchant's modules.
load_provider() {
    local modules apart=(unshare -m)
    nm -D --defined-only "$1/enchant_affedit.so" | cut -d ' ' -f 3 | same 'the names of the provider' <(echo init_enchant_provider)
    has 'the package enchant-2-affedit, by Enchant' enchant-2 enchant-lsmod-2 || return 0
    "${apart[@]}" true 2> /dev/null || apart=(unshare -rm)
    if ! "${apart[@]}" true 2> /dev/null; then
        echo 'skipped: the package enchant-2-affedit, by Enchant: needs a namespace of mounts, which this system refuses'
        return
    fi
    modules=$(pkg-config --variable=libdir enchant-2)/enchant-2
    # shellcheck disable=SC2016
    expect 'the providers of Enchant' 0 "${apart[@]}" bash -c 'mount --bind "$0" "$1" && enchant-lsmod-2' "$1" "$modules" <<< 'affedit (Affedit Provider)'
}

# install_packages: dpkg puts all of them below one folder, where they run, and takes them away.
install_packages() {
    local options root=$work/root name
    mkdir -p "$root" "$work/database"/{updates,info}
    : > "$work/database/status"
    : > "$work/database/available"
    # dpkg looks for commands of root.
    local PATH=$PATH:/usr/local/sbin:/usr/sbin:/sbin
    options=(--instdir="$root" --admindir="$work/database" --force-depends --force-not-root --log="$work/log")
    mapfile -t packages < <(packages_of "$work/packages")
    dpkg "${options[@]}" --install "${packages[@]}" > "$work/said" 2>&1 || { cat "$work/said"; wrong 'the packages cannot be installed'; }
    for name in "${names[@]}"; do
        files_of "$name"
    done | LC_ALL=C sort | same 'the packages: the files' <(files_below "$root/usr")
    runs 'the packages' "$root/usr" "$root/usr/lib/$triplet" "$root/usr/share/doc/libaffedit-dev/examples"
    expect 'tools/uninstall, of what dpkg installed' 1 "${bare[@]}" "$copy/tools/uninstall" "$root/usr" << SAID
tools/uninstall: there is no $root/usr/lib/affedit/FILES, which tools/install writes; nothing is removed
SAID
    dpkg "${options[@]}" --purge "${names[@]}" > "$work/said" 2>&1 || { cat "$work/said"; wrong 'the packages cannot be purged'; }
    [ -z "$(find "$root" -mindepth 1)" ] || wrong "the packages leave behind: $(find "$root" -mindepth 1 | head -n 3)"
}

# try_lintian: lintian names no error of a package. What it only warns of is not printed.
try_lintian() {
    has 'what lintian says of the packages' lintian lintian || return 0
    mapfile -t packages < <(packages_of "$work/packages")
    lintian --fail-on error --no-tag-display-limit "${packages[@]}" > "$work/said" 2> "$work/out" ||
        { grep '^E:' "$work/said" || cat "$work/out"; wrong 'lintian names errors of the packages'; }
}

# try_without: which packages are made without a C compiler, without the headers of Enchant, and without dpkg-shlibdeps.
try_without() {
    mkdir "$work/lacking" "$work/commands"
    expect 'packages without a C compiler' 0 "${bare[@]}" CC=no-such-compiler "$copy/tools/package" "$work/lacking" << SAID
without libaffedit.so.1: tools/shared-library: there is no C compiler no-such-compiler
without libaffedit1, libaffedit-dev and enchant-2-affedit: they need a C compiler
$(deb affedit "$work/lacking")
SAID
    dpkg-deb --contents "$(deb affedit "$work/lacking")" | sed -n 's|^[^dt].* \./usr/||p' | sed 's/ -> .*//' | LC_ALL=C sort > "$work/listed"
    files_of affedit | same 'affedit without a C compiler: the files' "$work/listed"
    expect 'the maintainer outside git' 0 dpkg-deb --field "$(deb affedit "$work/lacking")" Maintainer <<< 'nobody <nobody@localhost>'
    names=(affedit libaffedit1 libaffedit-dev)
    if has 'packages without the headers of Enchant' dpkg-dev dpkg-shlibdeps && has 'packages without the headers of Enchant' pkg-config pkg-config; then
        expect 'packages without the headers of Enchant' 0 "${bare[@]}" PKG_CONFIG_LIBDIR=/nowhere "$copy/tools/package" "$work/lacking" << SAID
without enchant-2-affedit: bindings/enchant/build: the headers of Enchant 2 are not installed
$(packages_of "$work/lacking")
SAID
    fi
    ln -s /usr/bin/* "$work/commands"
    rm -f "$work/commands/dpkg-shlibdeps"
    expect 'packages without dpkg-shlibdeps' 0 "${bare[@]}" "PATH=$work/commands" "$copy/tools/package" "$work/lacking" << SAID
without enchant-2-affedit: there is no command dpkg-shlibdeps
$(packages_of "$work/lacking")
SAID
}
