# Small dictionaries for tests, in the folder `in` of the folder `work`.
# Needs `top`, the folder of the checkout.
# shellcheck shell=bash disable=SC2154

# shellcheck source=tests/skips.bash
. "$top/tests/skips.bash"

# begin: skips the test without Python 3, and makes the folder `work`, which goes when the test ends. Nothing is built.
begin() {
    needs python3
    export AFFEDIT_NO_BUILD=1
    "$top/tests/program" > /dev/null
    work=$(mktemp -d)
    trap 'chmod -R u+w "$work"; rm -rf "$work"' EXIT
}

# made AFF DIC: the files a.aff and a.dic of these lines alone, in a new folder `in`. Each argument is a format of printf.
made() {
    rm -rf "$work/in"
    mkdir "$work/in"
    # shellcheck disable=SC2059
    printf "$1" > "$work/in/a.aff"
    # shellcheck disable=SC2059
    printf "$2" > "$work/in/a.dic"
}

# Numbers by letters, from `b` on.
letters() { seq "$1" | tr 0-9 a-j; }
