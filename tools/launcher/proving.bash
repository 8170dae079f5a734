# Proves and builds the program and the library for C: from a copy of their sources, side by side on all processors, by the kit's own gate.
# Proofs that the kit has kept on this machine are not done again, and what is proved is kept for its next run. Needs `top`, and sources.bash.
# shellcheck shell=bash disable=SC2154

# make_room: sets `room` to a new folder, which is removed as the shell ends. Crates that are proved take 3 GB there.
make_room() {
    room=$(mktemp -d -p "${TMPDIR:-/var/tmp}")
    trap 'rm -rf "$room"' EXIT
}

# copy_crate ROOM CRATE: copies what a crate is built from, and what its program is run on. Tests are left out, since nothing is built of them and
# they take longer to prove than the program: their module is empty.
copy_crate() {
    local part
    mkdir -p "$1/crates/$2"
    for part in src specs proofs data stdin stdout args status; do
        [ ! -e "$top/crates/$2/$part" ] || cp -R "$top/crates/$2/$part" "$1/crates/$2/"
    done
    rm -rf "$1/crates/$2/src/tests"
    [ ! -e "$1/crates/$2/src/tests.rt" ] || echo '//! Left out.' > "$1/crates/$2/src/tests.rt"
}

# copy_crates ROOM CRATE..: makes a repository of these crates alone. The edits that a check must refuse are left out: they try contracts,
# and nothing is built of them.
copy_crates() {
    local room=$1 name
    shift
    for name in "$@"; do
        copy_crate "$room" "$name"
    done
    printf '%s\n' "$@" | awk '
        FNR == NR { wanted[$1]; next }
        { line = $0; sub(/#.*/, "", line); split(line, part, /[ :]/) }
        part[1] in wanted' - "$top/crates.txt" > "$room/crates.txt"
    cp "$top/HANDLES" "$room/HANDLES"
    # `rt ci` wants crates.txt at the top of a repository.
    mkdir "$room/.git"
}

# count_proved LOG: the number of crates that are proved so far.
count_proved() {
    grep -cE '^rt: [a-z0-9_]+ (proved$|is kept:)' "$1" || true
}

# prove ROOM LOG CRATE..: proves these crates in ROOM, and reports on standard error how many are proved: as the number grows, but at most
# every ten seconds, and each minute. Its status is that of the proof. What is built is in ROOM/crates/CRATE/out.
prove() {
    local room=$1 log=$2 began=$SECONDS at=$SECONDS reported=-1 now=0 status=0 proving
    shift 2
    copy_crates "$room" "$@"
    : > "$log"
    (cd "$room" && exec rt ci) > "$log" 2>&1 < /dev/null 9>&- &
    proving=$!
    # A shell has what runs in the background ignore Ctrl-C.
    trap 'kill "$proving" 2> /dev/null; exit 130' INT TERM HUP
    while kill -0 "$proving" 2> /dev/null; do
        sleep 1
        now=$(count_proved "$log")
        if { [ "$now" != "$reported" ] && [ $((SECONDS - at)) -ge 10 ]; } || [ $((SECONDS - at)) -ge 60 ]; then
            echo "affedit: proved $now of $# crates, $(((SECONDS - began) / 60)) min" >&2
            reported=$now at=$SECONDS
        fi
    done
    wait "$proving" || status=$?
    trap - INT TERM HUP
    [ "$status" != 0 ] || [ "$reported" = $# ] || echo "affedit: proved $# of $# crates, $(((SECONDS - began) / 60)) min" >&2
    return "$status"
}

# build_library ROOM: proves `affedit_c` over the crates below, which `prove` has left in ROOM, and builds ROOM/libaffedit.a. The library has
# in it what calls `malloc`, `realloc` and `free`, so that a C program links it alone. It is for every x86-64: no program is told where a processor lacks
# what a library needs.
build_library() {
    local room=$1 kit name uses words
    kit=$(cd "$(dirname "$(readlink -f "$(command -v rt)")")/.." && pwd)
    copy_crate "$room" affedit_c
    words=(--crate-name affedit_c src/lib.rt --crate-type staticlib --cpu x86-64 --extern "std=$kit/rlibs/std.rlib" -L "dependency=$kit/rlibs")
    read -ra uses < <(sed -n 's/#.*//; s/^affedit_c [^:]*://p' "$top/crates.txt")
    for name in "${uses[@]}"; do
        if [ -d "$room/crates/$name" ]; then
            words+=(--extern "$name=$room/crates/$name/out/rlib/$name.rlib")
        else
            words+=(--extern "$name=$kit/rlibs/$name.rlib")
        fi
    done
    for name in $(crates_of affedit_c); do
        [ "$name" = affedit_c ] || words+=(-L "dependency=$room/crates/$name/out/rlib")
    done
    (cd "$room/crates/affedit_c" && "$kit/bin/rattle" build "${words[@]}" --antt-project "$kit/rattle/logic/antt-project.json" \
        --logic-built "$kit/logic_built" --jobs "$(nproc)" --toolchain "$kit/toolchain" --backend llvm -o "$room/libaffedit_c.a") || return
    # A name in such a script has no blank, so that of the room stands in none.
    (cd "$room" && printf '%s\n' 'create libaffedit.a' 'addlib libaffedit_c.a' "addlib $kit/c/liblibc_c.a" save end | "$kit/toolchain/bin/llvm-ar" -M)
}

# build_in ROOM LOG CRATE..: builds ROOM/affedit and ROOM/libaffedit.a, as the crates `affedit` and `affedit_c` are among those named. ROOM/MADE
# then names the kit, the digest of the sources and the files, and ROOM/stamp is as old as the sources. Fails where they change meanwhile.
build_in() {
    local room=$1 log=$2 digest crates name
    shift 2
    touch -d '1 second ago' "$room/stamp" || return
    digest=$(digest_of_sources) || return
    mapfile -t crates < <(crates_of "$@" | grep -vx affedit_c)
    prove "$room" "$log" "${crates[@]}" || return
    if [[ " $* " == *' affedit_c '* ]]; then
        build_library "$room" >> "$log" 2>&1 < /dev/null 9>&- || return
    fi
    if [ "$(digest_of_sources)" != "$digest" ]; then
        echo 'the sources were changed while they were proved' >> "$log"
        return 1
    fi
    printf '%s\n' "kit $(rt version)" "sources $digest" > "$room/MADE" || return
    [[ " $* " != *' affedit '* ]] || cp "$room/crates/affedit/out/affedit" "$room/affedit" || return
    for name in affedit libaffedit.a; do
        [ ! -e "$room/$name" ] || echo "$name $(sha256sum < "$room/$name" | cut -d ' ' -f 1)" >> "$room/MADE" || return
    done
}
