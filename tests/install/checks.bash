# What tests/install.sh and tests/install/package.bash share: whether what is installed below a prefix is whole, runs, and is found.
# Needs `top`, `work`, `copy` (the checkout that it was installed from), `version` and `failed`.
# shellcheck shell=bash disable=SC2034,SC2154

# has WHAT PACKAGE COMMAND: whether the command is there; else it says once what is skipped.
skipped=''
has() {
    [ -z "$(command -v "$3")" ] || return 0
    skip "$1" "$2"
    return 1
}

# skip WHAT PACKAGE
skip() {
    [[ $skipped == *"|$1|"* ]] || echo "skipped: $1: needs the package $2"
    skipped+="|$1|"
}

# has_compiler WHAT
has_compiler() { has "$1" gcc cc && has "$1" pkg-config pkg-config; }

wrong() {
    echo "$1"
    failed=1
}

# same WHAT FILE: the file has what stands on standard input.
same() { diff - "$2" || wrong "$1 differs"; }

# expect WHAT STATUS COMMAND..: the command ends so, and prints what stands on standard input, on standard error too.
expect() {
    local what=$1 wanted=$2 status=0
    shift 2
    cat > "$work/wanted"
    "$@" > "$work/out" 2>&1 < /dev/null || status=$?
    { [ "$status" = "$wanted" ] && diff "$work/wanted" "$work/out"; } || wrong "$what: status $status, wanted $wanted"
}

# files_below FOLDER: what is there, but for folders.
files_below() { (cd "$1" && find . ! -type d -printf '%P\n') | LC_ALL=C sort; }

# runs WHAT PREFIX [LIBRARIES EXAMPLES]: what is installed there runs from another folder, and no command but those of the system and its own is found. The
# library for C and the examples in C are in these folders, or where tools/install has them.
runs() {
    local page quoted what=$1 sample=$2/lib/affedit/examples/sample PATH=$2/bin:/usr/bin:/bin
    ! grep -rqIF -e "$top" -e "$copy" "$2" || wrong "$what: it names the folder of the sources"
    printf -v quoted %q "$sample"
    cd "$work" || return
    expect "$what: the sample" 1 affedit check "$sample.aff" "$sample.dic" "$sample.txt" << 'MARKS'
2 30 35 citys
1 of 15
MARKS
    expect "$what: a wrong word" 2 affedit chek "$sample.aff" "$sample.dic" "$sample.txt" << SAID
affedit: words
affedit: \`chek\` is no command; the nearest is \`check\`
affedit: the line to copy: affedit check $quoted.aff $quoted.dic $quoted.txt
affedit: the form is: affedit check AFF DIC FILE [--workers N] [--own OWN]
affedit: \`affedit --help\` says what they do
SAID
    printf 'SET UTF-8\nREP 2\nREP a b\n' > bad.aff
    expect "$what: a fault" 3 affedit edit bad.aff "$sample.dic" << SAID
aff 2 TableShort
bad.aff:2: the table announces more rows than it has (TableShort)
affedit: to mend both files, or to see why not: affedit-prepare-dictionary bad.aff $quoted.dic bad-prepared
SAID
    affedit --help > help
    "$copy/affedit" --help | sed 's|docs/affedit\.1|affedit(1)|' | same "$what: the help" help
    expect "$what: the version" 0 affedit --version < <(echo "affedit $version"; grep -E '^(kit|sources) ' "$copy/dist/MADE")
    scripts "$1" "$sample"
    if has_compiler 'a C program by pkg-config'; then
        links "$1" "${3:-$2/lib}" "${4:-$2/lib/affedit/examples/c}" "$sample"
    fi
    if has 'the manual pages that are installed' mandoc mandoc; then
        for page in affedit affedit-check; do
            # mandoc reads only one file that is packed.
            mandoc -T ascii "$2/share/man/man1/$page.1"* > page || true
            grep -qF "${page^^}(1)" page || wrong "$what: no manual page of $page"
        done
    fi
    editors "$1" "$2" "$sample"
}

# links WHAT LIBRARIES EXAMPLES SAMPLE: a program in C links either library by pkg-config, which tells the version that the header has, and the examples are
# built.
links() {
    local -x PKG_CONFIG_PATH=$2/pkgconfig
    local examples=$3 sample=$4
    # pkg-config writes words as a shell reads them.
    local flags shared archive
    eval "flags=($(pkg-config --cflags affedit)) shared=($(pkg-config --libs affedit)) archive=$(pkg-config --variable=archive affedit)"
    cc example.c "${flags[@]}" "${shared[@]}" -o example
    cc example.c "${flags[@]}" "$archive" -o alone
    expect "$1: a program in C" 0 env "LD_LIBRARY_PATH=$2" ./example "$sample.aff" "$sample.dic" city citys <<< $'city: generated\ncitys: not generated'
    expect "$1: a program in C with the archive" 0 ./alone "$sample.aff" "$sample.dic" city citys <<< $'city: generated\ncitys: not generated'
    [[ $(readelf -d example) == *'[libaffedit.so.1]'* && $(readelf -d alone) != *libaffedit* ]] || wrong "$1: the wrong library is linked"
    expect "$1: the version of the library" 0 pkg-config --modversion affedit <<< "$version"
    cc "${flags[@]}" "$top/tests/c/version.c" "${shared[@]}" -o version
    expect "$1: the versions of the header and of the library" 0 env "LD_LIBRARY_PATH=$2" ./version <<< "$version $version $version"
    cc "${flags[@]}" "$examples/check_file.c" "$archive" -o example
    expect "$1: an example in C" 1 ./example "$sample.aff" "$sample.dic" "$sample.txt" <<< '2:31: citys'
    if has 'an example in C++' g++ c++; then
        c++ "${flags[@]}" "$examples/check_file.cpp" "$archive" -o example
        expect "$1: an example in C++" 1 ./example "$sample.aff" "$sample.dic" "$sample.txt" <<< '2:31: citys'
    fi
    if has 'an example in Python' python3 python3; then
        expect "$1: an example in Python" 1 python3 "$examples/check_file.py" "$2/libaffedit.so.1" "$sample.aff" "$sample.dic" "$sample.txt" <<< '2:31: citys'
    fi
}

# scripts WHAT SAMPLE: the scripts affedit-NAME, which PATH finds.
scripts() {
    local sample=$2
    affedit check "$sample.aff" "$sample.dic" "$sample.txt" > marks || true
    if has 'affedit-in-color and affedit-without-addresses' perl perl; then
        affedit-without-addresses "$sample.txt" < marks > without || true
        same "$1: a script" without <<< $'2 30 35 citys\n1 of 15'
        affedit-in-color "$sample.txt" < marks > colored || true
        grep -qF $'\e[4;31mcitys\e[0m' colored || wrong "$1: no word in color"
    fi
    if has 'affedit-check, affedit-prepare-dictionary and affedit-lint-dictionary' python3 python3; then
        expect "$1: by name" 1 env "DICPATH=${sample%/*}" affedit-check -d sample "$sample.txt" <<< "$sample.txt:2:31: citys"
        expect "$1: the version, by affedit-check" 0 affedit-check --version < <(affedit --version)
        expect "$1: preparing a dictionary" 0 affedit-prepare-dictionary bad.aff "$sample.dic" made << 'SAID'
bad.aff:2: REP announces 2 rows and has 1: the count mended
made.aff, made.dic: written
SAID
        affedit-lint-dictionary bad.aff "$sample.dic" > lint || true
        [ "$(head -n 1 lint)" = 'bad.aff:2: TableShort' ] || wrong "$1: the linter says $(head -n 1 lint)"
    fi
    rm -f made.aff made.dic
}

# editors WHAT PREFIX SAMPLE: the plugins that are installed are found, and find their launcher, if the editor looks below the prefix.
editors() {
    echo "require('affedit').setup({})" > init.lua
    try_nvim "$1" "$2/bin/affedit" "$3" "XDG_DATA_DIRS=$2/share"
    try_emacs "$1" "$2/bin/affedit" "$3" "EMACSLOADPATH=$2/share/emacs/site-lisp:"
}

# try_nvim WHAT LAUNCHER SAMPLE SETTING..: Neovim, with the init.lua that is here.
try_nvim() {
    has 'the plugin for Neovim' neovim nvim || return 0
    expect "$1: Neovim" 0 env "SAMPLE=$3" "TRY=$top/tests/install/nvim.lua" "${@:4}" timeout 120 nvim --headless -i NONE -u init.lua -c "lua dofile(vim.env.TRY)" << SAID
$2
1 marks in 2 lines
affedit: no program /nowhere/affedit: ENOENT: no such file or directory
SAID
}

# try_emacs WHAT LAUNCHER SAMPLE SETTING..
try_emacs() {
    has 'the plugin for Emacs' emacs-nox emacs || return 0
    expect "$1: Emacs" 0 env "SAMPLE=$3" "${@:4}" timeout 120 emacs -Q --batch -l "$top/tests/install/emacs.el" << SAID
$2
1 marks in 3 lines
No program /nowhere/affedit
SAID
}
