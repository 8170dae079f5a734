# How the launcher `affedit` builds the program from its sources, where neither out/ nor dist/ has one of them. Needs `top`, `tools` and
# `fail` of the launcher, and sources.bash. Launches at once take turns. Standard error reports the progress of a build.
# shellcheck shell=bash disable=SC2034,SC2154

# shellcheck source=tools/launcher/proving.bash
. "$tools/proving.bash"

# Builds out/affedit, and sets `taken`. A program that is there is replaced only by one that was built and run.
build() {
    local log=$top/out/log began=$SECONDS status=0
    [ -w "$top/out" ] || fail "not built: $top/out cannot be written"
    exec 9> "$top/out/lock"
    flock 9
    # Another launch may have built it meanwhile.
    if take affedit; then
        exec 9>&-
        return
    fi
    [ -n "$(command -v rt)" ] || fail "$(why_nothing_is_there); to build one, the command rt of the Rattle kit is needed, which is not installed"
    echo "affedit: $(why_nothing_is_there): proving and building one; if nothing was proved before this takes about half an hour" >&2
    make_room
    build_in "$room" "$log" affedit || status=$?
    if [ "$status" != 0 ]; then
        tail -n 20 "$log" >&2
        fail "not built; all that was said is in $log"
    fi
    place "$room/affedit" affedit "$room/MADE" "$room/stamp"
    rm -rf "$room"
    trap - EXIT
    exec 9>&-
    taken=$top/out/affedit
    echo "affedit: built in $((SECONDS - began)) s" >&2
}

# Why a program has to be built, in words.
why_nothing_is_there() {
    if [ ! -e "$top/dist/affedit" ] || [ ! -e "$top/dist/MADE" ]; then
        echo 'there is no program in dist/'
    elif [ "$(value_of sources "$top/dist/MADE")" != "$(digest_of_sources)" ]; then
        echo 'the sources are not those of the program in dist/'
    else
        echo 'dist/affedit is not the file that dist/MADE names'
    fi
}
