/* Whether affedit_marks_in gives the marks of affedit_marks in each unit, from each mark on and with each room, and when it refuses. See tests/c.sh. */
#include <affedit.h>
#include <stdio.h>
#include <stdlib.h>
#include <string.h>

enum { MOST = 64, UNTOUCHED = 0x7f, LONG = 1 << 20 };

static int failures;

static void fail(const char *what, const char *text, uint32_t unit, size_t first, size_t room) {
    printf("units.c: %s: `%.40s`, unit %u, from mark %zu, room for %zu\n", what, text, unit, first, room);
    failures++;
}

/* How many units stand before a byte. A continuation byte begins no character; only one of four bytes has two units of UTF-16. */
static uint32_t units_before(const char *text, uint32_t byte, uint32_t unit) {
    uint32_t units = 0;
    for (uint32_t i = 0; i < byte; i++) {
        unsigned char c = (unsigned char)text[i];
        if (unit == AFFEDIT_BYTES) units++;
        else if ((c & 0xc0) != 0x80) units += unit == AFFEDIT_UTF16 && c >= 0xf0 ? 2 : 1;
    }
    return units;
}

/* Asks for the marks of a text in a unit, of which the marks in bytes are these. */
static void ask(affedit_dictionary *dictionary, const char *text, const affedit_mark *marks, size_t count, uint32_t unit, size_t first, size_t room) {
    affedit_mark got[MOST], untouched;
    size_t told = 12345, wanted = first < count ? count - first : 0, written = room < wanted ? room : wanted;
    memset(got, UNTOUCHED, sizeof got);
    memset(&untouched, UNTOUCHED, sizeof untouched);
    if (affedit_marks_in(dictionary, (const uint8_t *)text, strlen(text), unit, first, got, room, &told) != AFFEDIT_DONE) fail("not done", text, unit, first, room);
    if (told != count) fail("another count", text, unit, first, room);
    for (size_t i = 0; i < MOST; i++) {
        if (i >= written ? memcmp(&got[i], &untouched, sizeof untouched) != 0
                         : got[i].from != units_before(text, marks[first + i].from, unit) || got[i].to != units_before(text, marks[first + i].to, unit))
            fail("another mark", text, unit, first, room);
    }
}

static void ask_all(affedit_dictionary *dictionary, const char *text) {
    affedit_mark marks[MOST];
    size_t count = 0;
    memset(marks, 0, sizeof marks);
    if (affedit_marks(dictionary, (const uint8_t *)text, strlen(text), marks, MOST, &count) != AFFEDIT_DONE || count > MOST) fail("no marks", text, 0, 0, MOST);
    for (uint32_t unit = AFFEDIT_BYTES; unit <= AFFEDIT_CHARACTERS; unit++)
        for (size_t first = 0; first <= count + 1; first++)
            for (size_t room = 0; room <= count + 1; room++) ask(dictionary, text, marks, count, unit, first, room);
    ask(dictionary, text, marks, count, AFFEDIT_UTF16, SIZE_MAX, MOST);
}

/* What is refused leaves the array and the count. */
static void ask_refused(affedit_dictionary *dictionary, const char *text, uint32_t unit, uint32_t answer) {
    affedit_mark mark = {7, 9};
    size_t count = 12345;
    if (affedit_marks_in(dictionary, (const uint8_t *)text, strlen(text), unit, 0, &mark, 1, &count) != answer) fail("another answer", text, unit, 0, 1);
    if (mark.from != 7 || mark.to != 9 || count != 12345) fail("something is written", text, unit, 0, 1);
}

/* A long line, whose marks are many: each is where it was put. */
static void ask_long(affedit_dictionary *dictionary) {
    static const char part[] = "\xf0\x90\x90\x80\xc3\x9f wrld ";
    size_t size = sizeof part - 1, parts = LONG / size, count = 0;
    char *text = malloc(parts * size);
    affedit_mark *marks = calloc(2 * parts, sizeof *marks);
    for (size_t i = 0; i < parts; i++) memcpy(text + i * size, part, size);
    if (affedit_marks_in(dictionary, (const uint8_t *)text, parts * size, AFFEDIT_UTF16, 0, marks, 2 * parts, &count) != AFFEDIT_DONE || count != 2 * parts)
        fail("a long line", "", AFFEDIT_UTF16, 0, 2 * parts);
    for (size_t i = 0; i < parts; i++)
        if (marks[2 * i].from != 9 * i || marks[2 * i].to != 9 * i + 3 || marks[2 * i + 1].from != 9 * i + 4 || marks[2 * i + 1].to != 9 * i + 8)
            fail("a mark of a long line", "", AFFEDIT_UTF16, i, 0);
    free(marks);
    free(text);
}

int main(void) {
    static const char aff[] = "SET UTF-8\n", dic[] = "2\nhello\nstra\xc3\x9f" "e\n";
    static const char *const texts[] = {
        "", "hello", "wrld", "hello wrld", "a\xf0\x90\x90\x80" "b", "\xf0\x9f\x92\xa1 wrld \xf0\x9f\x92\xa1wrong", "stra\xc3\x9f" "e strasse \xc3\x9f" "a",
        "\xe2\x80\x99n\xe2\x80\x99 don\xe2\x80\x99t e\xcc\x81t", "one\ntwo\r\nthree \xe6\x97\xa5\xe6\x9c\xac\xe8\xaa\x9e", "x y z \xf0\x90\x90\x80 hello \xf0\x90\x90\x80\xf0\x90\x90\x80"};
    affedit_dictionary dictionary = AFFEDIT_CLOSED_HANDLE;
    affedit_fault fault = {0, 0, 0};
    ask_refused(&dictionary, "wrld", AFFEDIT_UTF16, AFFEDIT_CLOSED);
    ask_refused(&dictionary, "wrld", 3, AFFEDIT_CLOSED);
    if (affedit_open((const uint8_t *)aff, sizeof aff - 1, (const uint8_t *)dic, sizeof dic - 1, &dictionary, &fault) != AFFEDIT_DONE) return 1;
    for (size_t i = 0; i < sizeof texts / sizeof *texts; i++) ask_all(&dictionary, texts[i]);
    ask_refused(&dictionary, "wrld", 3, AFFEDIT_BAD_UNIT);
    ask_refused(&dictionary, "wrld", UINT32_MAX, AFFEDIT_BAD_UNIT);
    ask_refused(&dictionary, "wrld \xff", AFFEDIT_UTF16, AFFEDIT_NOT_UTF8);
    ask_refused(&dictionary, "wrld \xff", 3, AFFEDIT_BAD_UNIT);
    ask_long(&dictionary);
    affedit_close(&dictionary);
    return failures != 0;
}
