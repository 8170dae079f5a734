# What the program and the library for C are built from, and whether a file that was built belongs to the sources as they are now.
# Needs `top`, the folder of the checkout.
# shellcheck shell=bash disable=SC2034,SC2154

# The crates of which builds are kept in dist/: the program and the library for C.
kept_builds=(affedit affedit_c)

# crates_of CRATE..: these crates and those of the repository below them, a name a line.
crates_of() {
    local name below i
    local -A uses=() found=()
    local names=("$@")
    while IFS=: read -r name below; do
        name=${name%% *}
        [ -z "$name" ] || uses[$name]=$below
    done < <(sed 's/#.*//' "$top/crates.txt")
    for ((i = 0; i < ${#names[@]}; i++)); do
        name=${names[i]}
        if [ -n "${uses[$name]+there}" ] && [ -z "${found[$name]-}" ]; then
            found[$name]=1
            # shellcheck disable=SC2206
            names+=(${uses[$name]})
            echo "$name"
        fi
    done
}

# digest_of_sources: the sha256 of what `sha256sum` prints for crates.txt and each file in src/, specs/ and proofs/ of the crates of
# `kept_builds` and those below, but for src/tests.rt and src/tests/, sorted by the bytes of their names.
digest_of_sources() (
    cd "$top" || exit
    mapfile -t folders < <(crates_of "${kept_builds[@]}" | sed 's|.*|crates/&/src\ncrates/&/specs\ncrates/&/proofs|')
    { echo crates.txt; find "${folders[@]}" -type f ! -path '*/src/tests.rt' ! -path '*/src/tests/*' 2> /dev/null || true; } | LC_ALL=C sort | tr '\n' '\0' | xargs -0 sha256sum |
        sha256sum | cut -d ' ' -f 1
)

# value_of KEY FILE: the value of a key in a file of lines `KEY VALUE`, as dist/MADE is; nothing if there is none.
value_of() {
    sed -n "s/^$1 //p" "$2" 2> /dev/null || true
}

# is_untouched FILE: whether FILE exists, and no source was changed since FILE was: the times of sources are those of their inodes, which no
# command sets back. A folder src/, specs/ or proofs/ that is removed is not seen.
is_untouched() {
    [ -e "$1" ] &&
        [ -z "$(find "$top/crates.txt" "$top"/crates/*/{src,specs,proofs} -newercm "$1" -print -quit 2> /dev/null)" ]
}

# has_all_folders FILE: whether no crate has lost or got a folder since FILE was changed. One that has got its out/ counts too.
has_all_folders() {
    [ -z "$(find "$top"/crates "$top"/crates/* -maxdepth 0 -newercm "$1" -print -quit)" ]
}

# is_kept NAME DIGEST: whether dist/NAME was made of the sources with this digest, and is the file that dist/MADE names.
is_kept() {
    local file=$top/dist/$1 made=$top/dist/MADE
    [ -f "$file" ] && [ "$(value_of sources "$made")" = "$2" ] &&
        [ "$(sha256sum < "$file")" = "$(value_of "$1" "$made")  -" ]
}

# place FILE NAME MADE STAMP: puts a copy of FILE at out/NAME in one step, beside a copy of MADE, with the time of STAMP.
place() {
    local to=$top/out/$2
    cp "$1" "$to.$$" && cp "$3" "$to.made.$$" && touch -r "$4" "$to.$$" && mv "$to.made.$$" "$to.made" && mv "$to.$$" "$to"
}

# take NAME: finds a build NAME (`affedit` or `libaffedit.a`) of the sources as they are, and sets `taken` to its path: out/NAME, which is
# copied from dist/ if need be, or dist/NAME where out/ cannot be written. Fails where there is none.
take() {
    local to=$top/out/$1 digest stamp=$top/out/stamp.$$
    taken=$to
    ! { is_untouched "$to" && has_all_folders "$to"; } || return 0
    # What is changed in the second before the digest is taken is looked at once more by the next call.
    if ! { mkdir -p "$top/out" && touch -d '1 second ago' "$stamp"; } 2> /dev/null; then
        taken=$top/dist/$1
        is_kept "$1" "$(digest_of_sources)"
        return
    fi
    digest=$(digest_of_sources)
    if [ -e "$to" ] && [ "$(value_of sources "$to.made")" = "$digest" ]; then
        touch -r "$stamp" "$to"
    elif is_kept "$1" "$digest"; then
        place "$top/dist/$1" "$1" "$top/dist/MADE" "$stamp"
    else
        rm -f "$stamp"
        return 1
    fi
    rm -f "$stamp"
}
