/* Asks what affedit.h says of words and of texts, each by a small dictionary, and says what differs. See tests/c.sh. */
#include <affedit.h>
#include <stdio.h>
#include <stdlib.h>
#include <string.h>

static int failures;

static affedit_dictionary opened(const char *aff, const char *dic) {
    affedit_dictionary dictionary = AFFEDIT_CLOSED_HANDLE;
    affedit_fault fault = {0, 0, 0};
    uint32_t answer = affedit_open((const uint8_t *)aff, strlen(aff), (const uint8_t *)dic, strlen(dic), &dictionary, &fault);
    if (answer != AFFEDIT_DONE) {
        printf("meaning.c: a dictionary is answered %u: file %u, line %u, cause %u\n", answer, fault.file, (unsigned)fault.line, fault.cause);
        exit(1);
    }
    return dictionary;
}

/* ---- words */

static const char ENTRIES[] = "6\nword\nParis\nice cream\ncaf\u00e9\nit's\nno-one\n";

/* Words that a dictionary with these lines and ENTRIES knows, and words that it does not, each list up to a NULL. */
static const struct {
    const char *aff;
    const char *known[24], *unknown[24];
} WORDS[] = {
    /* cases; no word at all; numbers; dashes, by which words are broken unless the dictionary says otherwise; dots; spaces; composed characters */
    {"SET UTF-8\n",
     {"word", "Word", "WORD", "Paris", "PARIS", "", "0", "12", "1,000.50", "1-2", "word-Paris", "-word", "word-", "--word", "ice cream", "Ice cream",
      "caf\u00e9", "CAF\u00c9", "no-one", "no-one-word", NULL},
     {"wOrd", "paris", "-1", "1.", ".5", "1..2", "12th", "\u0663", "-", "word-wrd", "word.", ".", " word", "word ", "word Paris", "ice  cream", "cafe\u0301",
      "it\u2019s", "word\n", "wrd", NULL}},
    {"SET UTF-8\nBREAK 0\n", {"no-one", "1-2", NULL}, {"word-word", "-word", "word-", NULL}},
    {"SET UTF-8\nWORDCHARS .\n", {"word.", "word...", "1.", NULL}, {".word", ".", "...", "wrd.", NULL}},
    {"SET UTF-8\nICONV 2\nICONV e\u0301 \u00e9\nICONV \u2019 '\n", {"cafe\u0301", "it\u2019s", NULL}, {"e\u0301", NULL}},
    {"SET UTF-8\nIGNORE \u0301\n", {"wo\u0301rd", "\u0301", NULL}, {"wr\u0301d", NULL}},
};

static void ask(affedit_dictionary *dictionary, const char *aff, const char *word, size_t length, uint32_t wanted) {
    uint32_t answer = affedit_word(dictionary, (const uint8_t *)word, length);
    if (answer == wanted) return;
    printf("meaning.c: the word `%.*s` by %s is answered %u, and not %u\n", (int)length, word, aff, answer, wanted);
    failures++;
}

static void ask_words(void) {
    for (size_t i = 0; i < sizeof WORDS / sizeof *WORDS; i++) {
        affedit_dictionary dictionary = opened(WORDS[i].aff, ENTRIES);
        for (const char *const *word = WORDS[i].known; *word; word++) ask(&dictionary, WORDS[i].aff, *word, strlen(*word), AFFEDIT_KNOWN);
        for (const char *const *word = WORDS[i].unknown; *word; word++) ask(&dictionary, WORDS[i].aff, *word, strlen(*word), AFFEDIT_UNKNOWN);
        ask(&dictionary, WORDS[i].aff, "word\0", 5, AFFEDIT_UNKNOWN);
        affedit_close(&dictionary);
    }
}

/* Entries of 100 and of 101 characters, of two bytes each; only numbers may be longer. */
static void ask_long_words(void) {
    char dic[512] = "2\n", number[1000];
    for (size_t i = 0; i < 100; i++) strcat(dic, "\u00e9");
    strcat(dic, "\n");
    for (size_t i = 0; i < 101; i++) strcat(dic, "\u00e9");
    strcat(dic, "\n");
    memset(number, '7', sizeof number);
    affedit_dictionary dictionary = opened("SET UTF-8\n", dic);
    ask(&dictionary, "100 characters", dic + 2, 200, AFFEDIT_KNOWN);
    ask(&dictionary, "101 characters", dic + 203, 202, AFFEDIT_UNKNOWN);
    ask(&dictionary, "1,000 digits", number, sizeof number, AFFEDIT_KNOWN);
    affedit_close(&dictionary);
    dictionary = opened("SET UTF-8\nIGNORE x\n", dic);
    memmove(dic, dic + 2, 200);
    dic[200] = 'x';
    ask(&dictionary, "101 characters of which one is ignored", dic, 201, AFFEDIT_KNOWN);
    affedit_close(&dictionary);
}

/* ---- texts */

/* A text, and its words by an empty dictionary with these lines, which marks all but numbers: with bars between. */
static const struct {
    const char *aff, *text, *words;
} TEXTS[] = {
    {"SET UTF-8\n", "one  two\tthree\nfour\r\nfive", "one|two|three|four|five"},
    {"SET UTF-8\n", "don't it\u2019s 'tis dogs' rock 'n' roll", "don't|it\u2019s|tis|dogs|rock|n|roll"},
    {"SET UTF-8\n", "a-b snake_case e.g. me@here.org", "a|b|snake|case|e|g|me|here|org"},
    {"SET UTF-8\n", "2nd x86 1984 \u00bd \u0663", "nd|x"},
    {"SET UTF-8\nWORDCHARS 0123456789\n", "2nd x86 1984 1,5", "2nd|x86"},
    {"SET UTF-8\nWORDCHARS -.'\n", "a-b e.g. -- --a 'tis", "a-b|e.g.|--a|tis"},
    {"SET UTF-8\n", "e\u0301x \u0301 \u00e9x", "e\u0301x|\u00e9x"},
    {"SET UTF-8\n", "wo\u00adrd na\u200bme \u65e5\u672c\u8a9e\u00a0\u0430\u0431", "wo|rd|na|me|\u65e5\u672c\u8a9e|\u0430\u0431"},
    {"SET UTF-8\n", " \n--", ""},
    {"SET UTF-8\n", "", ""},
};

static void cut_texts(void) {
    for (size_t i = 0; i < sizeof TEXTS / sizeof *TEXTS; i++) {
        affedit_dictionary dictionary = opened(TEXTS[i].aff, "0\n");
        affedit_mark marks[32] = {{0, 0}};
        size_t count = 0, length = 0;
        char words[256] = "";
        uint32_t answer = affedit_marks(&dictionary, (const uint8_t *)TEXTS[i].text, strlen(TEXTS[i].text), marks, 32, &count);
        for (size_t j = 0; j < count; j++)
            length += (size_t)sprintf(words + length, "%s%.*s", j ? "|" : "", (int)(marks[j].to - marks[j].from), TEXTS[i].text + marks[j].from);
        if (answer != AFFEDIT_DONE || strcmp(words, TEXTS[i].words)) {
            printf("meaning.c: the text `%s` by %s is answered %u with `%s`, and not `%s`\n", TEXTS[i].text, TEXTS[i].aff, answer, words, TEXTS[i].words);
            failures++;
        }
        affedit_close(&dictionary);
    }
}

/* No text has more marks than half its bytes, rounded up; these have just so many. */
static void count_marks(void) {
    affedit_dictionary dictionary = opened("SET UTF-8\n", "0\n");
    uint8_t text[101];
    affedit_mark mark = {0, 0};
    for (size_t i = 0; i < sizeof text; i++) text[i] = i % 2 ? ' ' : 'a';
    for (size_t length = 0; length <= sizeof text; length++) {
        size_t count = 0;
        uint32_t answer = affedit_marks(&dictionary, text, length, &mark, 0, &count);
        if (answer == AFFEDIT_DONE && count == (length + 1) / 2) continue;
        printf("meaning.c: %zu bytes are answered %u with %zu marks\n", length, answer, count);
        failures++;
    }
    affedit_close(&dictionary);
}

int main(void) {
    ask_words();
    ask_long_words();
    cut_texts();
    count_marks();
    return failures != 0;
}
