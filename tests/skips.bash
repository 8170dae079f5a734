# How a test reports what it leaves out, and the Debian packages that tests and benches use, which tests/needs installs. What a test leaves
# out is a line of its output, `skipped: WHAT: needs the package NAME`, which tests/run counts. Such a test still ends with 0.
# shellcheck shell=bash

# The package of each command that a test or a bench may lack.
declare -A package_of=(
    [/usr/bin/time]=time [c++]=g++ [cc]=gcc [dpkg-deb]=dpkg [dpkg-shlibdeps]=dpkg-dev [emacs]=emacs-nox [enchant-2]=enchant-2
    [enchant-lsmod-2]=enchant-2 [hunspell]=hunspell [mandoc]=mandoc [nvim]=neovim [objdump]=binutils [perl]=perl [pkg-config]=pkg-config [python3]=python3 [script]=bsdutils
    [stty]=coreutils [unshare]=util-linux [valgrind]=valgrind
)

# skip WHAT NEEDS: reports that WHAT is left out. NEEDS says what it needs, as `the package NAME`.
skip() {
    echo "skipped: $1: needs $2"
}

# has WHAT COMMAND..: whether these commands are there. If not, it reports that WHAT is left out.
has() {
    local what=$1 name package packages=''
    shift
    for name in "$@"; do
        package=${package_of[$name]}
        [ -n "$(command -v "$name")" ] || [[ " $packages " == *" $package "* ]] || packages+=${packages:+ }$package
    done
    case $packages in
        '') return 0 ;;
        *' '*) skip "$what" "the packages ${packages// /, }" ;;
        *) skip "$what" "the package $packages" ;;
    esac
    return 1
}

# skip_all NEEDS: ends a test that can try nothing at all. tests/run reports it as skipped, and not as passed.
skip_all() {
    skip "all of ${0##*/}" "$1"
    exit 0
}

# needs COMMAND..: ends a test that can try nothing without these commands.
needs() {
    has "all of ${0##*/}" "$@" || exit 0
}

# has_sanitizers: whether what the C compiler builds with sanitizers runs.
has_sanitizers() (
    work=$(mktemp -d)
    trap 'rm -rf "$work"' EXIT
    echo 'int main(void) { return 0; }' | cc -fsanitize=address,undefined -x c - -o "$work/empty" && "$work/empty"
) 2> /dev/null

# sanitizers: the package with the sanitizers of the C compiler.
sanitizers() {
    if cc --version 2> /dev/null | grep -q clang; then
        echo "libclang-rt-$(cc -dumpversion | cut -d . -f 1)-dev"
    else
        echo "libgcc-$(cc -dumpversion 2> /dev/null | cut -d . -f 1)-dev"
    fi
}

# has_enchant_headers: whether a provider for Enchant 2 can be compiled.
has_enchant_headers() {
    pkg-config --exists enchant-2 glib-2.0 gmodule-2.0 2> /dev/null
}

# The package of each of Debian's dictionaries that tests use.
declare -A package_of_dictionary=([de_DE_frami]=hunspell-de-de-frami [en_US]=hunspell-en-us [hu_HU]=hunspell-hu)

# is_installed NAME: whether this dictionary of Debian's is there.
is_installed() {
    [ -e "/usr/share/hunspell/$1.aff" ] && [ -e "/usr/share/hunspell/$1.dic" ]
}

# has_dictionary WHAT NAME: whether this dictionary is there. If not, it reports that WHAT is left out.
has_dictionary() {
    is_installed "$2" || { skip "$1" "the package ${package_of_dictionary[$2]}"; return 1; }
}

# has_english: whether Debian's English dictionary is there, by which README.md checks a line.
has_english() {
    is_installed en_US
}
