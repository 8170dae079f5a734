/*
 * Measures what affedit.h says of memory and of the stack, and says what is past it. See tests/c.sh. Each call runs on a thread with the stack that the
 * header asks for: one that takes more ends the program.
 */
#include <affedit.h>
#include <malloc.h>
#include <pthread.h>
#include <stdio.h>
#include <stdlib.h>
#include <string.h>

enum { STACK = 65536, REMEMBERED = 4096, LONGEST = 64, MOST_OF_HANDLE = 1024, MOST_OF_WORDS = 2000000 };

static int failures;

/* ---- bytes that are allocated, by one thread at a time */

void *__real_malloc(size_t size);
void *__real_realloc(void *old, size_t size);
void __real_free(void *old);

static size_t held;

void *__wrap_malloc(size_t size) {
    void *block = __real_malloc(size);
    held += malloc_usable_size(block);
    return block;
}

void *__wrap_realloc(void *old, size_t size) {
    size_t before = malloc_usable_size(old);
    void *block = __real_realloc(old, size);
    if (block) held += malloc_usable_size(block) - before;
    return block;
}

void __wrap_free(void *old) {
    held -= malloc_usable_size(old);
    __real_free(old);
}

static void most(const char *what, size_t bytes, size_t limit) {
    fprintf(stderr, "%s: %zu bytes\n", what, bytes);
    if (bytes <= limit) return;
    printf("limits.c: %s takes %zu bytes, and not %zu at most\n", what, bytes, limit);
    failures++;
}

/* ---- calls */

static void need(int line, uint32_t answer, uint32_t wanted) {
    if (answer == wanted) return;
    printf("limits.c:%d: the answer is %u, and not %u\n", line, answer, wanted);
    failures++;
}

#define NEED(answer, wanted) need(__LINE__, answer, wanted)
#define BYTES(text) (const uint8_t *)(text), strlen(text)

/* Another handle on a dictionary, and as many words as it remembers, each as long as it may be. */
static void measure_memory(void) {
    affedit_dictionary one = AFFEDIT_CLOSED_HANDLE, two = AFFEDIT_CLOSED_HANDLE;
    affedit_fault fault = {0, 0, 0};
    size_t before = held;
    NEED(affedit_open(BYTES("SET UTF-8\n"), BYTES("1\nword\n"), &one, &fault), AFFEDIT_DONE);
    size_t alone = held;
    NEED(affedit_share(&one, &two), AFFEDIT_DONE);
    NEED(affedit_word(&two, BYTES("word")), AFFEDIT_KNOWN);
    most("a handle more", held - alone, MOST_OF_HANDLE);
    for (int i = 0; i < 2 * REMEMBERED; i++) {
        char word[LONGEST + 1];
        sprintf(word, "%0*dx", LONGEST - 1, i);
        NEED(affedit_word(&two, BYTES(word)), AFFEDIT_UNKNOWN);
    }
    most("a handle more with all words that it remembers", held - alone, MOST_OF_WORDS);
    affedit_close(&one);
    affedit_close(&two);
    most("what closed handles have", held - before, 0);
}

/* A dictionary of many words, of which a handle has a word more: all handles that share it then have that dictionary in memory once. */
static void share_what_is_prepared(void) {
    enum { WORDS = 20000, HANDLES = 8 };
    static char dic[WORDS * 8 + 8];
    affedit_dictionary all[HANDLES + 1];
    affedit_fault fault = {0, 0, 0};
    size_t length = (size_t)sprintf(dic, "%d\n", WORDS), before = held;
    for (int i = 0; i < WORDS; i++) length += (size_t)sprintf(dic + length, "w%05d\n", i);
    for (int i = 0; i <= HANDLES; i++) all[i] = (affedit_dictionary)AFFEDIT_CLOSED_HANDLE;
    NEED(affedit_open(BYTES("SET UTF-8\n"), (const uint8_t *)dic, length, &all[0], &fault), AFFEDIT_DONE);
    size_t alone = held - before;
    NEED(affedit_add(&all[0], BYTES("wurk")), AFFEDIT_DONE);
    for (int i = 1; i <= HANDLES; i++) NEED(affedit_share(&all[0], &all[i]), AFFEDIT_DONE);
    for (int i = 0; i <= HANDLES; i++) NEED(affedit_word(&all[i], BYTES("wurk")), AFFEDIT_KNOWN);
    most("eight handles that share a word more", held - before, 3 * alone);
    for (int i = 0; i <= HANDLES; i++) affedit_close(&all[i]);
}

/* A blank line adds nothing, and what the handle remembers stays. */
static void keep_what_is_remembered(void) {
    affedit_dictionary dictionary = AFFEDIT_CLOSED_HANDLE;
    affedit_fault fault = {0, 0, 0};
    NEED(affedit_open(BYTES("SET UTF-8\n"), BYTES("1\nword\n"), &dictionary, &fault), AFFEDIT_DONE);
    NEED(affedit_add(&dictionary, BYTES("wurk")), AFFEDIT_DONE);
    NEED(affedit_word(&dictionary, BYTES("wurk")), AFFEDIT_KNOWN);
    size_t before = held;
    NEED(affedit_add(&dictionary, BYTES("  ")), AFFEDIT_BLANK);
    most("what a blank line gives up", before - held, 0);
    affedit_close(&dictionary);
}

/* Words of 100 characters that are broken at each, which go deepest. */
static const char DEEP_AFF[] = "SET UTF-8\nWORDCHARS -.\nCOMPOUNDFLAG C\nCOMPOUNDMIN 1\nBREAK 4\nBREAK ^a\nBREAK -\nBREAK ^-\nBREAK .\nSFX S Y 1\nSFX S 0 a/C .\n";
static const char DEEP_DIC[] = "2\na-b/S\nb/CS\n";
static const char *const UNITS[] = {"-", "a", "a-", "a--", "-.a-.", "ab", "b", "."};

static void go_deep(void) {
    affedit_dictionary dictionary = AFFEDIT_CLOSED_HANDLE;
    affedit_fault fault = {0, 0, 0};
    affedit_mark marks[4] = {{0, 0}};
    NEED(affedit_open(BYTES(DEEP_AFF), BYTES(DEEP_DIC), &dictionary, &fault), AFFEDIT_DONE);
    NEED(affedit_add(&dictionary, BYTES("bab/a-b")), AFFEDIT_DONE);
    for (size_t i = 0; i < sizeof UNITS / sizeof *UNITS; i++) {
        char word[101];
        size_t count = 0;
        for (size_t at = 0; at < 100; at++) word[at] = UNITS[i][at % strlen(UNITS[i])];
        word[99] = 'x';
        word[100] = 0;
        NEED(affedit_word(&dictionary, BYTES(word)), AFFEDIT_UNKNOWN);
        NEED(affedit_marks(&dictionary, BYTES(word), marks, 4, &count), AFFEDIT_DONE);
    }
    NEED(affedit_list(&dictionary, BYTES("bab\n"), &fault), AFFEDIT_DONE);
    affedit_close(&dictionary);
}

static void *run(void *unused) {
    measure_memory();
    share_what_is_prepared();
    keep_what_is_remembered();
    go_deep();
    return unused;
}

int main(void) {
    pthread_attr_t attributes;
    pthread_t thread;
    pthread_attr_init(&attributes);
    if (pthread_attr_setstacksize(&attributes, STACK) || pthread_create(&thread, &attributes, run, NULL)) {
        printf("limits.c: there is no thread with a stack of %d bytes\n", STACK);
        return 1;
    }
    pthread_join(thread, NULL);
    pthread_attr_destroy(&attributes);
    return failures != 0;
}
