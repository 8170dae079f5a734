/*
 * Affedit for C: whether a Hunspell dictionary generates a word, the marks of a text, and personal
 * words. What each function answers is proved, for any bytes, as long as its caller keeps to this
 * page:
 *
 *  - Every pointer is valid, aligned, not null and to initialized memory, also where a length is 0:
 *    a caller that has nothing to give gives the address of any variable of that type. A length
 *    counts what the pointer leads to, and is below 2^63. Where a parameter is `const`, the memory
 *    is read during the call alone, and no pointer to it is kept.
 *  - What a function only writes is initialized too: `affedit_fault fault = {0};`, a count with any
 *    value, and an array of marks by `calloc`.
 *  - Memory that a function reads is written by no one during the call: by no thread, no signal
 *    handler and no other process. So a file that is mapped into memory is neither written nor
 *    made shorter meanwhile; where that cannot be known, its bytes are copied first.
 *  - Memory that a function writes overlaps no other memory of that call, and no one else reads or
 *    writes it during the call. So two handles of one call are two variables.
 *  - A handle is a variable of the caller's that begins as AFFEDIT_CLOSED_HANDLE. From then on the
 *    functions alone write it. It may be moved, as by `memcpy`, but of two copies one alone is used
 *    and closed: a copy that is closed leaves the other one dangling.
 *  - One call at a time has a handle. Between calls it may go to another thread, by a lock, by the
 *    start or the join of a thread, or by an atomic that is sequentially consistent. Threads that
 *    ask at once have a handle each, by affedit_share.
 *  - `malloc`, `realloc` and `free` are of one allocator for the whole program, and align memory to
 *    each power of two up to 16 that divides its size. They may fail: functions answer
 *    AFFEDIT_NO_MEMORY then, and leave what they were given as it was.
 *  - No function is called from a signal handler, or in the child of a `fork` of a process with
 *    several threads. A handler may run during a call, if it touches nothing that the call has.
 *  - A call that has begun comes to its end. No `longjmp` and no exception leaves it, out of a
 *    signal handler or out of `malloc`, and its thread is not cancelled meanwhile: a thread of which
 *    cancellation is asynchronous, or whose `malloc` may be cancelled, disables it before the call.
 *
 * No function starts a thread, takes a lock, opens a file, prints, or ends the process. The library
 * keeps nothing but what handles have, and frees it as they are closed. A handle has its dictionary,
 * its personal words, and the last 4,096 words of 64 characters or less that were asked, each with
 * its answer. Beside the dictionary and personal words that takes 1.6 MB at most. A call takes less
 * than 64 kB of stack. Both figures are measured (tests/c/limits.c), and not proved.
 *
 * The library is for Linux on x86-64. It runs on each processor of that kind.
 *
 * What stays under the name libaffedit.so.1, so that a program that was compiled with an older header
 * of that name runs with a newer library:
 *
 *  - A program allocates three structs: affedit_dictionary, affedit_fault and affedit_mark, and arrays
 *    of the last. Each keeps its size, its alignment, and the names, types and places of its fields.
 *  - The fields of affedit_dictionary are the library's. A program neither reads nor writes them, and
 *    what they hold may change. AFFEDIT_CLOSED_HANDLE stays a closed handle.
 *  - Each constant keeps its value. Each function keeps its parameters, and answers nothing that is
 *    not said of it here. New causes of faults may come, with numbers above those of their file.
 *  - What a later version has to tell beyond this comes by a new function, with a struct of its own.
 *    What cannot come so gets another name, libaffedit.so.2: programs are compiled anew for it.
 *
 * AFFEDIT_VERSION is the version of the header that a program was compiled with. The archive is of
 * the version of the header beside it. affedit_version tells the version of the library that runs. If
 * a shared library is older and lacks a function, the dynamic linker ends the program, at its start
 * or at the call. All sizes are those of x86-64 (tests/c/layout.c).
 *
 * Which words are known follows from the dictionary. Where it says nothing else:
 *
 *  - affedit_word takes its bytes as one word, and cuts nothing off. No bytes are known. So is a
 *    number: groups of ASCII digits with one dot, comma or dash between neighbours, of any length.
 *    Any other word of more than 100 characters, after ICONV and IGNORE, is unknown.
 *  - An entry `word` stands for `Word` and `WORD` too, and `Paris` for `PARIS`.
 *  - A word may be broken at dashes: where `word` is known, `word-word`, `-word` and `word-` are.
 *  - A dot at the end belongs to the word: `word.` is unknown, unless WORDCHARS has a dot. A space
 *    is a character like others: `ice cream` is known by an entry with the space.
 *  - Nothing is normalized: a composed letter is not the letter with its combining accent, and
 *    U+2019 is not the apostrophe. ICONV may say that they are.
 *  - affedit_marks cuts a text into words: runs of letters, combining marks and characters of
 *    WORDCHARS, with an apostrophe or U+2019 directly between two of these. A run without a letter
 *    or an ASCII digit is no word. So digits, dashes and dots are in no word unless WORDCHARS has
 *    them: `2nd` has the word `nd`. A soft hyphen cuts a word, and a line feed always does.
 *  - Between two marks stands a byte at least. A text of N bytes has at most N / 2 + 1 marks.
 */
#ifndef AFFEDIT_H
#define AFFEDIT_H

#include <stdbool.h>
#include <stddef.h>
#include <stdint.h>

/* The version of this header, and of the library beside it. */
#define AFFEDIT_VERSION "1.0.0"
#define AFFEDIT_VERSION_MAJOR 1
#define AFFEDIT_VERSION_MINOR 0
#define AFFEDIT_VERSION_PATCH 0
/* The same as one number, which rises with each version. */
#define AFFEDIT_VERSION_NUMBER \
    (AFFEDIT_VERSION_MAJOR * 1000000u + AFFEDIT_VERSION_MINOR * 1000u + AFFEDIT_VERSION_PATCH)

#ifdef __cplusplus
extern "C" {
#endif

/* A handle on a dictionary, or a closed one. Its fields are the library's, and its size stays. */
typedef struct affedit_dictionary {
    void *held;
    bool is_open;
} affedit_dictionary;

/* A closed handle: affedit_dictionary dictionary = AFFEDIT_CLOSED_HANDLE; */
#define AFFEDIT_CLOSED_HANDLE { NULL, false }

/* What a function answers. Each says below which of them it may answer, and when. */
enum {
    AFFEDIT_DONE = 0,       /* what was asked for is done */
    AFFEDIT_KNOWN = 1,      /* the dictionary generates the word */
    AFFEDIT_UNKNOWN = 2,    /* it does not */
    AFFEDIT_FAULTY = 3,     /* a file has a fault, which is told */
    AFFEDIT_BLANK = 4,      /* the line is blank, and adds nothing */
    AFFEDIT_EMPTY_WORD = 5, /* the line has no word, or a slash and no model behind it */
    AFFEDIT_TOO_MANY = 6,   /* there are 10,000 personal words already */
    AFFEDIT_NOT_UTF8 = 7,   /* the bytes are not UTF-8 */
    AFFEDIT_TOO_LONG = 8,   /* the text has 4,294,967,296 bytes or more */
    AFFEDIT_CLOSED = 9,     /* the handle is closed */
    AFFEDIT_NO_MEMORY = 10, /* memory could not be had */
    AFFEDIT_BAD_UNIT = 11   /* no unit of places has this number */
};

/* In what affedit_marks_in counts places. */
enum {
    AFFEDIT_BYTES = 0,     /* bytes of UTF-8 */
    AFFEDIT_UTF16 = 1,     /* units of UTF-16: two for a character from U+10000 on, else one */
    AFFEDIT_CHARACTERS = 2 /* characters, as Unicode numbers them */
};

/* Which file a fault is in. */
enum {
    AFFEDIT_AFF_FILE = 1,
    AFFEDIT_DIC_FILE = 2,
    AFFEDIT_OWN_FILE = 3 /* a list of personal words */
};

/* The first fault of a file: the line, from 1, and the cause, by the file's own numbers below. Where
 * the file has more than 16,777,216 bytes, line and cause are 0. */
typedef struct affedit_fault {
    uint64_t line;
    uint32_t file;
    uint32_t cause;
} affedit_fault;

/* Causes in an .aff file. Of two at one line the lower one is told. */
enum {
    AFFEDIT_AFF_NOT_UTF8 = 1,       /* the line is not UTF-8 */
    AFFEDIT_AFF_OTHER_ENCODING = 2, /* the file is in another encoding than UTF-8 */
    AFFEDIT_AFF_LEFT_OUT = 3,       /* the dictionary needs an option that is not built */
    AFFEDIT_AFF_MISSING_FIELD = 4,  /* the line lacks a field that its option needs */
    AFFEDIT_AFF_TWICE = 5,          /* it is said again, or is past the rows of its table */
    AFFEDIT_AFF_BAD_NUMBER = 6,     /* no number, too high a number, or no header of its class above */
    AFFEDIT_AFF_TOO_MANY = 7,       /* more rows or rules are announced than are allowed */
    AFFEDIT_AFF_TABLE_SHORT = 8,    /* the table announces more rows than it has */
    AFFEDIT_AFF_OTHER_FLAG = 9,     /* there is no such type of flags */
    AFFEDIT_AFF_BAD_CROSS = 10,     /* neither Y nor N */
    AFFEDIT_AFF_BAD_FLAG = 11,      /* no flag, or no list of flags, of the type that FLAG names */
    AFFEDIT_AFF_BAD_ALIAS = 12,     /* not the number of a row of AF */
    AFFEDIT_AFF_BAD_CONDITION = 13, /* a bracket of the condition is not closed */
    AFFEDIT_AFF_BAD_PATTERN = 14    /* the compound rule is not a list of flags with * or ? */
};

/* Causes in a .dic file. */
enum {
    AFFEDIT_DIC_NOT_UTF8 = 1,   /* the line is not UTF-8 */
    AFFEDIT_DIC_BAD_COUNT = 2,  /* the first line does not begin with the number of entries */
    AFFEDIT_DIC_EMPTY_WORD = 3, /* the entry has no word */
    AFFEDIT_DIC_BAD_FLAG = 4,   /* no list of flags of the type that FLAG names */
    AFFEDIT_DIC_BAD_ALIAS = 5,  /* not the number of a row of AF */
    AFFEDIT_DIC_TOO_MANY = 6    /* there are more than 1,000,000 entries */
};

/* Causes in a list of personal words. */
enum {
    AFFEDIT_OWN_NOT_UTF8 = 1,   /* the line is not UTF-8 */
    AFFEDIT_OWN_EMPTY_WORD = 2, /* the line has no word, or a slash and no model behind it */
    AFFEDIT_OWN_TOO_MANY = 3    /* there are more than 10,000 items */
};

/* Where a word stands that the dictionary does not generate: its first byte and the byte past its
 * end, from 0; or its first unit and the unit past its end, where the caller asks for other units. */
typedef struct affedit_mark {
    uint32_t from;
    uint32_t to;
} affedit_mark;

/* The version of the library that runs, as AFFEDIT_VERSION_NUMBER is that of this header. A shared
 * library may be a later one than the header. */
uint32_t affedit_version(void);

/*
 * The sentence that says to people, in English, what is wrong with a file: by `file` and `cause` of a
 * fault. It is UTF-8, begins with a small letter, and has no full stop and no NUL at its end. As many
 * bytes as `sentence` has room for are written to its front, and nothing behind them.
 *
 * Returns how many bytes the sentence has in all, be there room for them or not: at most 200 in this
 * version. 0 is returned if no fault has these numbers.
 */
size_t affedit_cause(const affedit_fault *fault, uint8_t *sentence, size_t room);

/*
 * Opens the dictionary that the bytes of an .aff file and of a .dic file are. The bytes may be
 * freed or changed afterwards.
 *
 *  - AFFEDIT_DONE: the handle has the dictionary, without personal words. What it had before is
 *    freed. affedit_close frees the dictionary.
 *  - AFFEDIT_FAULTY: the files have a fault, which is written to `fault`.
 *  - AFFEDIT_NO_MEMORY.
 *
 * Where it is not done the handle stays as it was. Unless AFFEDIT_FAULTY, `fault` stays.
 */
uint32_t affedit_open(const uint8_t *aff, size_t aff_length, const uint8_t *dic, size_t dic_length,
                      affedit_dictionary *dictionary, affedit_fault *fault);

/* Closes a handle, and frees what it alone has. A closed one stays closed. It cannot fail. */
void affedit_close(affedit_dictionary *dictionary);

/*
 * Lets another handle have what a handle has, as one for another thread. Both share the dictionary
 * in memory; each has personal words of its own from then on, and each is closed. If `dictionary`
 * has personal words it is prepared with them first, unless a question did that.
 *
 *  - AFFEDIT_DONE: `other` has it. What it had before is freed.
 *  - AFFEDIT_CLOSED: `dictionary` is closed.
 *  - AFFEDIT_NO_MEMORY.
 *
 * Where it is not done `other` stays as it was.
 */
uint32_t affedit_share(affedit_dictionary *dictionary, affedit_dictionary *other);

/*
 * Whether the dictionary, with the personal words, generates a word.
 *
 *  - AFFEDIT_KNOWN, AFFEDIT_UNKNOWN.
 *  - AFFEDIT_NOT_UTF8: the word is not UTF-8.
 *  - AFFEDIT_CLOSED: the handle is closed.
 *  - AFFEDIT_NO_MEMORY. The first question behind a change of the personal words needs the most,
 *    since the dictionary is prepared with them.
 */
uint32_t affedit_word(affedit_dictionary *dictionary, const uint8_t *word, size_t length);

/*
 * The marks of a text: the words that the dictionary, with the personal words, does not generate,
 * in their order. As many as `marks` has room for are written to its front, and nothing behind them.
 *
 *  - AFFEDIT_DONE: `count` is how many marks the text has in all, be there room for them or not.
 *  - AFFEDIT_NOT_UTF8: the text is not UTF-8.
 *  - AFFEDIT_TOO_LONG: the text has 4,294,967,296 bytes or more.
 *  - AFFEDIT_CLOSED: the handle is closed.
 *  - AFFEDIT_NO_MEMORY.
 *
 * Where it is not done `marks` and `count` stay as they were.
 */
uint32_t affedit_marks(affedit_dictionary *dictionary, const uint8_t *text, size_t length,
                       affedit_mark *marks, size_t room, size_t *count);

/*
 * The marks of a text from the one with the number `first` on, counted from 0, with places in `unit`:
 * AFFEDIT_BYTES, AFFEDIT_UTF16 or AFFEDIT_CHARACTERS. As many as `marks` has room for are written to
 * its front, and nothing behind them. So an array that is too small is filled again from a later
 * mark on; each call cuts and checks the whole text.
 *
 *  - AFFEDIT_DONE: `count` is how many marks the text has in all, also those before `first`.
 *  - AFFEDIT_BAD_UNIT: `unit` is none of the three.
 *  - AFFEDIT_NOT_UTF8: the text is not UTF-8.
 *  - AFFEDIT_TOO_LONG: the text has 4,294,967,296 bytes or more.
 *  - AFFEDIT_CLOSED: the handle is closed.
 *  - AFFEDIT_NO_MEMORY.
 *
 * Where it is not done `marks` and `count` stay as they were.
 */
uint32_t affedit_marks_in(affedit_dictionary *dictionary, const uint8_t *text, size_t length,
                          uint32_t unit, size_t first, affedit_mark *marks, size_t room, size_t *count);

/*
 * The characters of WORDCHARS, an option of the .aff file: those that stand in words beside letters
 * and combining marks, as Unicode's numbers, in the order of the file. As many as `characters` has
 * room for are written to its front, and nothing behind them.
 *
 *  - AFFEDIT_DONE: `count` is how many there are in all, be there room for them or not.
 *  - AFFEDIT_CLOSED: the handle is closed. `characters` and `count` stay as they were.
 */
uint32_t affedit_word_characters(affedit_dictionary *dictionary, uint32_t *characters, size_t room,
                                 size_t *count);

/*
 * Adds the item of a line to the personal words of this handle: a word, `*WORD` to prohibit one, or
 * `WORD/MODEL` to inflect one as another. The line has no end of line.
 *
 *  - AFFEDIT_DONE: the item is added.
 *  - AFFEDIT_BLANK: the line is blank, and adds nothing.
 *  - AFFEDIT_EMPTY_WORD: the line has no word, or a slash and no model behind it.
 *  - AFFEDIT_TOO_MANY: there are 10,000 items already.
 *  - AFFEDIT_NOT_UTF8: the line is not UTF-8.
 *  - AFFEDIT_CLOSED: the handle is closed.
 *  - AFFEDIT_NO_MEMORY.
 *
 * Where it is not done the words stay as they were.
 */
uint32_t affedit_add(affedit_dictionary *dictionary, const uint8_t *line, size_t length);

/*
 * Takes the personal words that the bytes of a list are, an item a line, in place of those that
 * this handle has. No bytes take all words away.
 *
 *  - AFFEDIT_DONE.
 *  - AFFEDIT_FAULTY: the list has a fault, which is written to `fault`.
 *  - AFFEDIT_CLOSED: the handle is closed.
 *  - AFFEDIT_NO_MEMORY.
 *
 * Where it is not done the words stay as they were. Unless AFFEDIT_FAULTY, `fault` stays.
 */
uint32_t affedit_list(affedit_dictionary *dictionary, const uint8_t *list, size_t length,
                      affedit_fault *fault);

#ifdef __cplusplus
}
#endif

#endif
