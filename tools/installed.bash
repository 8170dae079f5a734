# What tools/install and tools/uninstall share: the list of what is installed below a prefix, PREFIX/lib/affedit/FILES. A line is the path of a file
# or of a link, from the prefix. A line that ends with a slash is a folder that did not exist before; `./` is the prefix itself.
# Needs a function `fail`.
# shellcheck shell=bash disable=SC2034

list=lib/affedit/FILES

# prefix_of [PREFIX]: the folder that is meant: /usr/local if none is given, and below DESTDIR if that is set.
prefix_of() {
    realpath -m -- "${DESTDIR-}$(realpath -m -- "${1:-/usr/local}")"
}

# listed PREFIX: the lines of its list. Fails if there is none, or if a line is not the path of something below the prefix.
listed() {
    local line
    [ -f "$1/$list" ] || fail "there is no $1/$list, which tools/install writes; nothing is removed"
    while IFS= read -r line; do
        [ "$line" = ./ ] || [[ -n ${line%/} && /${line%/}/ != *//* && /${line%/}/ != */./* && /${line%/}/ != */../* ]] ||
            fail "a line of $1/$list is no path below $1: $line"
        printf '%s\n' "$line"
    done < "$1/$list"
}

# remove_files PREFIX: removes the files that standard input names. What is a folder now was put there by somebody else, and stays.
remove_files() {
    local name
    while IFS= read -r name; do
        { [ -d "$1/$name" ] && [ ! -L "$1/$name" ]; } || rm -f -- "$1/$name" || return
    done
}

# remove_folders PREFIX: removes the folders that standard input names, the deepest first, and names each that stays since it is not empty.
remove_folders() {
    local name folder
    LC_ALL=C sort -r | while IFS= read -r name; do
        folder=$1/${name%/}
        [ "$name" != ./ ] || folder=$1
        if [ -d "$folder" ] && [ ! -L "$folder" ]; then
            rmdir --ignore-fail-on-non-empty -- "$folder"
            [ ! -d "$folder" ] || echo "kept, since it is not empty: $folder"
        fi
    done
}
