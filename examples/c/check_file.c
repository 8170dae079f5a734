/*
 * Checks a file: check_file AFF DIC FILE. It prints LINE:COLUMN: WORD for each word that the dictionary does not generate. Lines and columns count from
 * 1, columns in characters. The status is 0 if no word is marked, 1 if one is, and 2 if the file cannot be checked.
 *
 *     cc check_file.c $(pkg-config --cflags --libs affedit) -o check_file
 */
#include "files.h"

/* Where a byte of a text stands. */
typedef struct {
    size_t byte, line, column;
} place;

/* Goes on to a later byte. Each byte that begins a character is counted; those that continue one are 10xxxxxx. */
static void go_to(place *at, const uint8_t *bytes, size_t byte) {
    for (; at->byte < byte; at->byte++) {
        if (bytes[at->byte] == '\n') {
            at->line++;
            at->column = 1;
        } else if ((bytes[at->byte] & 0xC0) != 0x80)
            at->column++;
    }
}

/* The marks of a text, which the caller frees, and how many there are. Between two words is a byte at least, so there is room for all. */
static affedit_mark *marks_of(affedit_dictionary *dictionary, text all, const char *name, size_t *count) {
    size_t room = all.length / 2 + 1;
    affedit_mark *marks = calloc(room, sizeof *marks);
    if (!marks) fail(name, "there is too little memory");
    switch (affedit_marks(dictionary, all.bytes, all.length, marks, room, count)) {
    case AFFEDIT_DONE:
        return marks;
    case AFFEDIT_NOT_UTF8:
        fail(name, "it is not UTF-8");
    case AFFEDIT_TOO_LONG:
        fail(name, "it is too long");
    default:
        fail(name, "there is too little memory");
    }
}

int main(int count, char **words) {
    if (count != 4) fail("usage", "check_file AFF DIC FILE");
    affedit_dictionary dictionary = open_dictionary(words[1], words[2]);
    text all = read_file(words[3]);
    size_t found = 0;
    affedit_mark *marks = marks_of(&dictionary, all, words[3], &found);
    place at = {0, 1, 1};
    for (size_t i = 0; i < found; i++) {
        go_to(&at, all.bytes, marks[i].from);
        printf("%zu:%zu: %.*s\n", at.line, at.column, (int)(marks[i].to - marks[i].from), (char *)all.bytes + marks[i].from);
    }
    free(marks);
    free(all.bytes);
    affedit_close(&dictionary);
    return found > 0;
}
