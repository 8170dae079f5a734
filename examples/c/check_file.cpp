/*
 * Checks a file as check_file.c does, by affedit.hpp: check_file AFF DIC FILE.
 *
 *     c++ -std=c++17 check_file.cpp $(pkg-config --cflags --libs affedit) -o check_file
 */
#include <affedit.hpp>
#include <algorithm>
#include <fstream>
#include <iostream>
#include <iterator>

static std::string read_file(const char *name) {
    std::ifstream file(name, std::ios::binary);
    if (!file) throw std::runtime_error(std::string(name) + ": it cannot be read");
    return {std::istreambuf_iterator<char>(file), {}};
}

/* How many characters a text has: each byte but 10xxxxxx begins one. */
static std::size_t characters(std::string_view text) {
    return static_cast<std::size_t>(std::count_if(text.begin(), text.end(), [](unsigned char byte) { return (byte & 0xC0) != 0x80; }));
}

/* Prints where each marked word is, and returns whether there is one. */
static bool print_marks(affedit::dictionary &dictionary, std::string_view text) {
    std::size_t line = 1, start = 0, seen = 0;
    std::vector<affedit_mark> marks = dictionary.marks(text);
    for (affedit_mark mark : marks) {
        for (; seen < mark.from; seen++) {
            if (text[seen] != '\n') continue;
            line++;
            start = seen + 1;
        }
        std::cout << line << ':' << characters(text.substr(start, mark.from - start)) + 1 << ": " << affedit::word_at(text, mark) << '\n';
    }
    return !marks.empty();
}

int main(int count, char **words) {
    try {
        if (count != 4) throw std::runtime_error("usage: check_file AFF DIC FILE");
        affedit::dictionary dictionary(read_file(words[1]), read_file(words[2]));
        return print_marks(dictionary, read_file(words[3]));
    } catch (const std::exception &error) {
        std::cerr << error.what() << '\n';
        return 2;
    }
}
