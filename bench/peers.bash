# What the scripts share that measure the program beside the libraries of nuspell and hunspell. Sourced in a folder that may be written.
# shellcheck shell=bash

# build_peer NAME LOAD: a program `NAME AFF DIC WORDS` that prints how many of the words, one a line, a library refuses.
build_peer() {
    local name=$1 load=$2
    cat > "$name.cc" << CODE
#include <$name/$([ "$name" = hunspell ] && echo hunspell || echo dictionary).hxx>
#include <fstream>
#include <iostream>
int main(int, char **names) {
    $load
    std::ifstream words(names[3]);
    std::string word;
    long refused = 0;
    while (std::getline(words, word)) refused += !dictionary.spell(word);
    std::cout << refused << " refused\n";
}
CODE
    # shellcheck disable=SC2046
    c++ -std=c++17 -O2 -o "$name" "$name.cc" $(pkg-config --cflags --libs "$name")
}
build_hunspell() { build_peer hunspell 'Hunspell dictionary(names[1], names[2]);'; }
build_nuspell() {
    build_peer nuspell 'std::ifstream aff(names[1]), dic(names[2]);
    nuspell::Dictionary dictionary;
    dictionary.load_aff_dic(aff, dic);'
}

# instructions COMMAND..: the instructions of a call, as callgrind counts them.
instructions() {
    { valgrind --tool=callgrind --callgrind-out-file=/dev/null "$@" 2>&1 > /dev/null || true; } | sed -n 's/.*Collected : //p'
}
