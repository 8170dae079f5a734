/* Calls each function of the library for C, and says what differs from what is due. See tests/c.sh for the words. */
#include <affedit.h>
#include <pthread.h>
#include <stdio.h>
#include <stdlib.h>
#include <string.h>

typedef struct {
    uint8_t *bytes;
    size_t length;
} text;

/* ---- allocations, of which one may be refused */

void *__real_malloc(size_t size);
void *__real_realloc(void *old, size_t size);

/* How many allocations are left to the one that is refused; -1: none is. One thread alone sets it. */
static long left = -1;
static bool was_refused;

static bool refuses(void) {
    if (left < 0 || left-- > 0) return false;
    was_refused = true;
    return true;
}

void *__wrap_malloc(size_t size) { return refuses() ? NULL : __real_malloc(size); }

void *__wrap_realloc(void *old, size_t size) { return refuses() ? NULL : __real_realloc(old, size); }

/* ---- what differs */

static int failures;

#define WANT(answer, wanted) want(__LINE__, #answer, answer, wanted)

static void want(int line, const char *what, size_t answer, size_t wanted) {
    if (answer == wanted) return;
    printf("calls.c:%d: %s is %zu, and not %zu\n", line, what, answer, wanted);
    failures++;
}

/* ---- files */

/* The bytes of a file, in a block of their size alone, so that a read behind them is seen. */
static text read_file(const char *name) {
    FILE *file = fopen(name, "rb");
    if (!file) {
        printf("missing\n");
        exit(2);
    }
    text all = {malloc(1), 0};
    for (;;) {
        uint8_t part[65536];
        size_t count = fread(part, 1, sizeof part, file);
        if (count == 0) break;
        all.bytes = realloc(all.bytes, all.length + count);
        memcpy(all.bytes + all.length, part, count);
        all.length += count;
    }
    fclose(file);
    return all;
}

static const char *cause_of(affedit_fault fault) {
    static const char *aff[] = {"", "NotUtf8", "OtherEncoding", "LeftOut", "MissingField", "Twice", "BadNumber", "TooMany", "TableShort",
                                "OtherFlag", "BadCross", "BadFlag", "BadAlias", "BadCondition", "BadPattern"};
    static const char *dic[] = {"", "NotUtf8", "BadCount", "EmptyWord", "BadFlag", "BadAlias", "TooMany"};
    static const char *own[] = {"", "NotUtf8", "EmptyWord", "TooMany"};
    return fault.file == AFFEDIT_AFF_FILE ? aff[fault.cause] : fault.file == AFFEDIT_DIC_FILE ? dic[fault.cause] : own[fault.cause];
}

/* Prints a fault as the program does, and ends. */
static int told(affedit_fault fault) {
    static const char *files[] = {"", "aff", "dic", "own"};
    if (fault.cause == 0) {
        WANT(fault.line, 0);
        printf("limit 16777216\n");
    } else
        printf("%s %llu %s\n", files[fault.file], (unsigned long long)fault.line, cause_of(fault));
    return 3;
}

static const affedit_fault NO_FAULT = {77, 77, 77};

static void want_no_fault(int line, affedit_fault fault) {
    want(line, "the line of a fault that is not told", fault.line, 77);
    want(line, "its file", fault.file, 77);
    want(line, "its cause", fault.cause, 77);
}

/* Opens the dictionary of two files, with the personal words of a third, if one is named; ends with a fault, which is printed. */
static affedit_dictionary opened(const char *aff_name, const char *dic_name, const char *own_name) {
    affedit_dictionary dictionary = AFFEDIT_CLOSED_HANDLE;
    affedit_fault fault = NO_FAULT;
    text aff = read_file(aff_name), dic = read_file(dic_name);
    uint32_t answer = affedit_open(aff.bytes, aff.length, dic.bytes, dic.length, &dictionary, &fault);
    free(aff.bytes);
    free(dic.bytes);
    if (answer == AFFEDIT_FAULTY) exit(told(fault));
    WANT(answer, AFFEDIT_DONE);
    want_no_fault(__LINE__, fault);
    if (own_name) {
        text own = read_file(own_name);
        answer = affedit_list(&dictionary, own.bytes, own.length, &fault);
        free(own.bytes);
        if (answer == AFFEDIT_FAULTY) {
            affedit_close(&dictionary);
            exit(told(fault));
        }
        WANT(answer, AFFEDIT_DONE);
        want_no_fault(__LINE__, fault);
    }
    return dictionary;
}

/* ---- the marks of the lines of a text, as the program prints them */

/* Asks for the marks of a line with other room: what is written are the first of them, and nothing behind. */
static void want_same_marks(affedit_dictionary *dictionary, text line, const affedit_mark *marks, size_t count, size_t room) {
    affedit_mark *some = malloc((room + 1) * sizeof *some);
    size_t counted = 0;
    memset(some, 0x55, (room + 1) * sizeof *some);
    WANT(affedit_marks(dictionary, line.bytes, line.length, some, room, &counted), AFFEDIT_DONE);
    WANT(counted, count);
    for (size_t i = 0; i <= room; i++) {
        bool is_mark = i < room && i < count;
        WANT(some[i].from, is_mark ? marks[i].from : 0x55555555);
        WANT(some[i].to, is_mark ? marks[i].to : 0x55555555);
    }
    free(some);
}

/* The lines of a text: where the next one is, behind `at`. */
static bool next_line(text all, size_t *at, text *line) {
    if (*at >= all.length) return false;
    uint8_t *start = all.bytes + *at, *end = memchr(start, '\n', all.length - *at);
    line->length = end ? (size_t)(end - start) : all.length - *at;
    line->bytes = start;
    *at += line->length + 1;
    return true;
}

/* Prints the marks of a text, a line each, into a file. Each marked word alone is unknown too. */
static void check(affedit_dictionary *dictionary, text all, FILE *out) {
    size_t at = 0, number = 0;
    text line;
    while (next_line(all, &at, &line)) {
        size_t count = 0, room = line.length + 1;
        affedit_mark *marks = calloc(room, sizeof *marks);
        number++;
        WANT(affedit_marks(dictionary, line.bytes, line.length, marks, room, &count), AFFEDIT_DONE);
        for (size_t i = 0; i < count; i++) {
            uint8_t *word = line.bytes + marks[i].from;
            size_t length = marks[i].to - marks[i].from;
            WANT(affedit_word(dictionary, word, length), AFFEDIT_UNKNOWN);
            fprintf(out, "%zu %u %u %.*s\n", number, marks[i].from, marks[i].to, (int)length, (char *)word);
        }
        if (number % 101 == 1)
            for (size_t room = 0; room <= count + 1; room++) want_same_marks(dictionary, line, marks, count, room);
        free(marks);
    }
}

static int check_file(char **names, bool has_own) {
    affedit_dictionary dictionary = opened(names[0], names[1], has_own ? names[2] : NULL);
    text all = read_file(names[has_own ? 3 : 2]);
    check(&dictionary, all, stdout);
    free(all.bytes);
    affedit_close(&dictionary);
    return 0;
}

/* Prints what each line of a file is answered as a word. */
static int ask_file(char **names) {
    affedit_dictionary dictionary = opened(names[0], names[1], NULL);
    text all = read_file(names[2]), line;
    size_t at = 0;
    while (next_line(all, &at, &line)) printf("%u\n", affedit_word(&dictionary, line.bytes, line.length));
    free(all.bytes);
    affedit_close(&dictionary);
    return 0;
}

/* ---- several threads */

typedef struct {
    pthread_t thread;
    affedit_dictionary dictionary;
    text all;
    FILE *out;
    char *said;
    size_t length;
} worker;

static void *work(void *given) {
    worker *own = given;
    check(&own->dictionary, own->all, own->out);
    affedit_close(&own->dictionary);
    return NULL;
}

/* Eight threads, with a handle each, print the same. */
static int share_file(char **names) {
    enum { THREADS = 8 };
    affedit_dictionary dictionary = opened(names[0], names[1], names[2]);
    text all = read_file(names[3]);
    worker workers[THREADS] = {0};
    for (int i = 0; i < THREADS; i++) {
        workers[i].all = all;
        workers[i].out = open_memstream(&workers[i].said, &workers[i].length);
        WANT(affedit_share(&dictionary, &workers[i].dictionary), AFFEDIT_DONE);
    }
    for (int i = 0; i < THREADS; i++) WANT(pthread_create(&workers[i].thread, NULL, work, &workers[i]), 0);
    check(&dictionary, all, stdout);
    affedit_close(&dictionary);
    for (int i = 0; i < THREADS; i++) {
        pthread_join(workers[i].thread, NULL);
        fclose(workers[i].out);
        WANT(workers[i].length, workers[0].length);
        WANT(memcmp(workers[i].said, workers[0].said, workers[0].length), 0);
    }
    printf("-- the threads\n%s", workers[0].said);
    for (int i = 0; i < THREADS; i++) free(workers[i].said);
    free(all.bytes);
    return 0;
}

/* ---- bytes that are not UTF-8 */

/* Whether bytes are UTF-8, by the table of the standard. */
static bool is_utf8(const uint8_t *bytes, size_t length) {
    for (size_t at = 0; at < length;) {
        uint8_t first = bytes[at];
        size_t more = first < 0x80 ? 0 : first < 0xc2 ? 9 : first < 0xe0 ? 1 : first < 0xf0 ? 2 : first < 0xf5 ? 3 : 9;
        uint8_t low = first == 0xe0 ? 0xa0 : first == 0xf0 ? 0x90 : 0x80, high = first == 0xed ? 0x9f : first == 0xf4 ? 0x8f : 0xbf;
        if (more == 9 || at + more >= length) return false;
        for (size_t i = 1; i <= more; i++) {
            if (bytes[at + i] < low || bytes[at + i] > high) return false;
            low = 0x80, high = 0xbf;
        }
        at += more + 1;
    }
    return true;
}

static uint32_t seed = 1;

static uint32_t some(uint32_t below) {
    seed = seed * 1664525u + 1013904223u;
    return (seed >> 8) % below;
}

/* Asks bytes as a word, as a text and as a line, in a block of their own. */
static void ask_bytes(affedit_dictionary *dictionary, const uint8_t *bytes, size_t length) {
    bool is_text = is_utf8(bytes, length);
    uint8_t *own = calloc(1, length + !length);
    affedit_mark mark = {5, 6};
    size_t count = 7;
    if (length) memcpy(own, bytes, length);
    uint32_t word = affedit_word(dictionary, own, length), text = affedit_marks(dictionary, own, length, &mark, 1, &count);
    WANT(is_text, word != AFFEDIT_NOT_UTF8);
    WANT(text, is_text ? AFFEDIT_DONE : AFFEDIT_NOT_UTF8);
    if (is_text)
        WANT(word == AFFEDIT_KNOWN || word == AFFEDIT_UNKNOWN, true);
    else {
        WANT(count, 7);
        WANT(mark.from, 5);
        WANT(mark.to, 6);
        WANT(affedit_add(dictionary, own, length), AFFEDIT_NOT_UTF8);
    }
    free(own);
}

/* Each front of a text with characters of each size, each pair of bytes, and bytes at random: as words and as files. */
static int ask_any_bytes(char **names) {
    static const char cut[] = "a\u00e9\u0436\u4e2d\U0001f600\u00df \u0301x";
    static const uint8_t kinds[] = {0, 9, 10, 13, 32, 45, 47, 48, 65, 97, 115, 127, 128, 143, 144, 159, 160, 191, 192, 194, 223, 224, 237, 239, 240, 244, 245, 255};
    affedit_dictionary dictionary = opened(names[0], names[1], NULL);
    for (size_t length = 0; length < sizeof cut; length++) ask_bytes(&dictionary, (const uint8_t *)cut, length);
    for (uint32_t pair = 0; pair < 65536; pair++) ask_bytes(&dictionary, (uint8_t[]){(uint8_t)(pair >> 8), (uint8_t)pair}, 2);
    for (int i = 0; i < 50000; i++) {
        uint8_t bytes[12];
        uint32_t length = some(13);
        for (uint32_t at = 0; at < length; at++) bytes[at] = some(2) ? kinds[some(sizeof kinds)] : (uint8_t)some(256);
        ask_bytes(&dictionary, bytes, length);
    }
    affedit_close(&dictionary);
    text aff = read_file(names[0]), dic = read_file(names[1]);
    for (int i = 0; i < 2000; i++) {
        affedit_fault fault = {0};
        text *spoiled = some(2) ? &aff : &dic;
        uint32_t place = spoiled->length ? some((uint32_t)spoiled->length) : 0;
        uint8_t kept = spoiled->length ? spoiled->bytes[place] : 0;
        size_t end = some(4) ? spoiled->length : place, length = spoiled->length;
        if (length) spoiled->bytes[place] = some(2) ? kinds[some(sizeof kinds)] : (uint8_t)some(256);
        spoiled->length = end;
        uint32_t answer = affedit_open(aff.bytes, aff.length, dic.bytes, dic.length, &dictionary, &fault);
        WANT(answer == AFFEDIT_DONE || answer == AFFEDIT_FAULTY, true);
        spoiled->length = length;
        if (length) spoiled->bytes[place] = kept;
    }
    affedit_close(&dictionary);
    free(aff.bytes);
    free(dic.bytes);
    return 0;
}

/* ---- handles, and personal words one at a time */

#define BYTES(string) (const uint8_t *)(string), sizeof(string) - 1

static void want_closed(affedit_dictionary *dictionary) {
    affedit_dictionary other = AFFEDIT_CLOSED_HANDLE;
    affedit_fault fault = NO_FAULT;
    affedit_mark mark = {5, 6};
    size_t count = 7;
    WANT(dictionary->is_open, false);
    WANT(affedit_word(dictionary, BYTES("cat")), AFFEDIT_CLOSED);
    WANT(affedit_marks(dictionary, BYTES("cat"), &mark, 1, &count), AFFEDIT_CLOSED);
    WANT(count, 7);
    WANT(mark.from, 5);
    uint32_t character = 8;
    WANT(affedit_word_characters(dictionary, &character, 1, &count), AFFEDIT_CLOSED);
    WANT(count, 7);
    WANT(character, 8);
    WANT(affedit_add(dictionary, BYTES("cat")), AFFEDIT_CLOSED);
    WANT(affedit_list(dictionary, BYTES("cat\n"), &fault), AFFEDIT_CLOSED);
    want_no_fault(__LINE__, fault);
    WANT(affedit_share(dictionary, &other), AFFEDIT_CLOSED);
    WANT(other.is_open, false);
    affedit_close(dictionary);
}

static const char AFF[] = "SET UTF-8\nFORBIDDENWORD !\nSFX S Y 1\nSFX S 0 s .\nWORDCHARS -\n", DIC[] = "2\ncat/S\nhousehold\n";

/* The characters of WORDCHARS, into arrays with room for fewer and for more. */
static void want_characters(affedit_dictionary *dictionary, const uint32_t *wanted, size_t length) {
    for (size_t room = 0; room <= length + 1; room++) {
        uint32_t array[5] = {91, 92, 93, 94, 95};
        size_t count = 96;
        WANT(affedit_word_characters(dictionary, array, room, &count), AFFEDIT_DONE);
        WANT(count, length);
        for (size_t i = 0; i < 5; i++) WANT(array[i], i < room && i < length ? wanted[i] : 91 + i);
    }
}

static void ask_characters(void) {
    static const char three[] = "SET UTF-8\nWORDCHARS .-\u00df\n", none[] = "SET UTF-8\n";
    affedit_dictionary one = AFFEDIT_CLOSED_HANDLE, two = AFFEDIT_CLOSED_HANDLE;
    affedit_fault fault = NO_FAULT;
    WANT(affedit_open(BYTES(three), BYTES("1\ncat\n"), &one, &fault), AFFEDIT_DONE);
    want_characters(&one, (const uint32_t[]){'.', '-', 0xdf}, 3);
    /* Neither personal words nor another handle change them. */
    WANT(affedit_add(&one, BYTES("dog")), AFFEDIT_DONE);
    WANT(affedit_share(&one, &two), AFFEDIT_DONE);
    affedit_close(&one);
    want_characters(&two, (const uint32_t[]){'.', '-', 0xdf}, 3);
    WANT(affedit_word(&two, BYTES("dog")), AFFEDIT_KNOWN);
    WANT(affedit_open(BYTES(none), BYTES("1\ncat\n"), &two, &fault), AFFEDIT_DONE);
    want_characters(&two, NULL, 0);
    affedit_close(&two);
}

#define LONG_WORD "abcdefghijabcdefghijabcdefghijabcdefghijabcdefghijabcdefghijabcdefghij"

static int use_handles(void) {
    affedit_dictionary one = AFFEDIT_CLOSED_HANDLE, two = AFFEDIT_CLOSED_HANDLE;
    affedit_fault fault = NO_FAULT;
    want_closed(&one);
    ask_characters();
    WANT(affedit_open(BYTES(AFF), BYTES(DIC), &one, &fault), AFFEDIT_DONE);
    want_no_fault(__LINE__, fault);
    WANT(affedit_word(&one, BYTES("cats")), AFFEDIT_KNOWN);
    WANT(affedit_word(&one, BYTES("dogs")), AFFEDIT_UNKNOWN);
    WANT(affedit_word(&one, BYTES("")), AFFEDIT_KNOWN);
    WANT(affedit_share(&one, &two), AFFEDIT_DONE);
    WANT(affedit_add(&one, BYTES("dog/cat")), AFFEDIT_DONE);
    WANT(affedit_add(&one, BYTES("*household")), AFFEDIT_DONE);
    WANT(affedit_add(&one, BYTES("  \t")), AFFEDIT_BLANK);
    WANT(affedit_add(&one, BYTES("")), AFFEDIT_BLANK);
    WANT(affedit_add(&one, BYTES("word/")), AFFEDIT_EMPTY_WORD);
    WANT(affedit_add(&one, BYTES("*")), AFFEDIT_EMPTY_WORD);
    WANT(affedit_word(&one, BYTES("dogs")), AFFEDIT_KNOWN);
    WANT(affedit_word(&one, BYTES("household")), AFFEDIT_UNKNOWN);
    WANT(affedit_word(&two, BYTES("dogs")), AFFEDIT_UNKNOWN);
    WANT(affedit_word(&two, BYTES("household")), AFFEDIT_KNOWN);
    /* A word that is too long for its answer to be remembered. */
    WANT(affedit_word(&one, BYTES(LONG_WORD)), AFFEDIT_UNKNOWN);
    WANT(affedit_add(&one, BYTES(LONG_WORD)), AFFEDIT_DONE);
    for (int i = 0; i < 2; i++) {
        WANT(affedit_word(&one, BYTES(LONG_WORD)), AFFEDIT_KNOWN);
        WANT(affedit_word(&two, BYTES(LONG_WORD)), AFFEDIT_UNKNOWN);
    }
    /* A handle may be moved. */
    affedit_dictionary moved;
    memcpy(&moved, &one, sizeof moved);
    one = (affedit_dictionary)AFFEDIT_CLOSED_HANDLE;
    WANT(affedit_word(&moved, BYTES("dogs")), AFFEDIT_KNOWN);
    /* A list takes the place of the words; a faulty one does not. */
    WANT(affedit_list(&moved, BYTES("bird/cat\n\n/\nword/\n"), &fault), AFFEDIT_FAULTY);
    WANT(fault.file, AFFEDIT_OWN_FILE);
    WANT(fault.line, 4);
    WANT(fault.cause, AFFEDIT_OWN_EMPTY_WORD);
    WANT(affedit_word(&moved, BYTES("dogs")), AFFEDIT_KNOWN);
    WANT(affedit_list(&moved, BYTES("bird/cat\n"), &fault), AFFEDIT_DONE);
    WANT(affedit_word(&moved, BYTES("dogs")), AFFEDIT_UNKNOWN);
    WANT(affedit_word(&moved, BYTES("birds")), AFFEDIT_KNOWN);
    WANT(affedit_share(&moved, &two), AFFEDIT_DONE);
    affedit_close(&moved);
    want_closed(&moved);
    WANT(affedit_word(&two, BYTES("birds")), AFFEDIT_KNOWN);
    WANT(affedit_list(&two, BYTES(""), &fault), AFFEDIT_DONE);
    WANT(affedit_word(&two, BYTES("birds")), AFFEDIT_UNKNOWN);
    for (int i = 0; i < 10000; i++) {
        char line[16];
        int length = snprintf(line, sizeof line, "w%d", i);
        WANT(affedit_add(&two, (const uint8_t *)line, (size_t)length), AFFEDIT_DONE);
    }
    WANT(affedit_add(&two, BYTES("more")), AFFEDIT_TOO_MANY);
    WANT(affedit_add(&two, BYTES("")), AFFEDIT_BLANK);
    /* What is opened takes the place of what was there. */
    WANT(affedit_open(BYTES("SET ISO8859-1\n"), BYTES(DIC), &two, &fault), AFFEDIT_FAULTY);
    WANT(fault.cause, AFFEDIT_AFF_OTHER_ENCODING);
    WANT(affedit_add(&two, BYTES("more")), AFFEDIT_TOO_MANY);
    WANT(affedit_open(BYTES(AFF), BYTES("1\nplain\n"), &two, &fault), AFFEDIT_DONE);
    WANT(affedit_word(&two, BYTES("plain")), AFFEDIT_KNOWN);
    WANT(affedit_word(&two, BYTES("cat")), AFFEDIT_UNKNOWN);
    affedit_close(&two);
    want_closed(&two);
    return 0;
}

/* ---- each allocation refused in turn */

/* A call answers what is due, or that memory is wanting where an allocation was refused: then it is made again. */
#define UNLESS_REFUSED(answer, wanted)                                  \
    do {                                                                \
        was_refused = false;                                            \
        uint32_t given = (answer);                                      \
        if (was_refused && given == AFFEDIT_NO_MEMORY) {                \
            refusals++;                                                 \
            given = (answer);                                           \
        }                                                               \
        WANT(given, wanted);                                            \
    } while (0)

static int refuse_each(char **names) {
    text aff = read_file(names[0]), dic = read_file(names[1]), own = read_file(names[2]), all = read_file(names[3]);
    size_t turns = 0, refusals = 0;
    bool was_reached = true;
    for (long turn = 0; was_reached; turn++) {
        affedit_dictionary one = AFFEDIT_CLOSED_HANDLE, two = AFFEDIT_CLOSED_HANDLE;
        affedit_fault fault = NO_FAULT;
        affedit_mark marks[4];
        size_t count = 0;
        left = turn;
        UNLESS_REFUSED(affedit_open(aff.bytes, aff.length, dic.bytes, dic.length, &one, &fault), AFFEDIT_DONE);
        UNLESS_REFUSED(affedit_marks(&one, all.bytes, all.length, marks, 4, &count), AFFEDIT_DONE);
        size_t before = count;
        UNLESS_REFUSED(affedit_add(&one, BYTES("zzyzx")), AFFEDIT_DONE);
        UNLESS_REFUSED(affedit_word(&one, BYTES("zzyzx")), AFFEDIT_KNOWN);
        UNLESS_REFUSED(affedit_share(&one, &two), AFFEDIT_DONE);
        UNLESS_REFUSED(affedit_list(&one, own.bytes, own.length, &fault), AFFEDIT_DONE);
        UNLESS_REFUSED(affedit_word(&one, BYTES("zzyzx")), AFFEDIT_UNKNOWN);
        UNLESS_REFUSED(affedit_word(&two, BYTES("zzyzx")), AFFEDIT_KNOWN);
        UNLESS_REFUSED(affedit_list(&one, BYTES(""), &fault), AFFEDIT_DONE);
        UNLESS_REFUSED(affedit_marks(&one, all.bytes, all.length, marks, 4, &count), AFFEDIT_DONE);
        WANT(count, before);
        want_no_fault(__LINE__, fault);
        affedit_close(&one);
        affedit_close(&two);
        was_reached = left < 0;
        left = -1;
        turns++;
    }
    fprintf(stderr, "%zu runs, %zu calls refused\n", turns, refusals);
    /* Some memory is asked for that a call can do without. */
    WANT(refusals > 0 && refusals < turns, true);
    free(aff.bytes);
    free(dic.bytes);
    free(own.bytes);
    free(all.bytes);
    return 0;
}

int main(int count, char **words) {
    int status = 2;
    char *what = count > 1 ? words[1] : "";
    if (!strcmp(what, "check") && count == 5) status = check_file(words + 2, false);
    if (!strcmp(what, "own") && count == 6) status = check_file(words + 2, true);
    if (!strcmp(what, "words") && count == 5) status = ask_file(words + 2);
    if (!strcmp(what, "threads") && count == 6) status = share_file(words + 2);
    if (!strcmp(what, "bytes") && count == 4) status = ask_any_bytes(words + 2);
    if (!strcmp(what, "handles") && count == 2) status = use_handles();
    if (!strcmp(what, "memory") && count == 6) status = refuse_each(words + 2);
    return failures ? 1 : status;
}
