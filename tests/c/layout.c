/*
 * What affedit.h promises under the name libaffedit.so.1: the layout of each struct, the value of each constant, and the type of each function, beside the
 * numbers of x86-64 that stand here. It compiles only while they are the same. A new constant gets a line here; a line that is here is never changed.
 * See tests/c.sh.
 */
#include <affedit.h>
#include <stddef.h>

/* A struct: its size, its alignment, and the place and the type of each field. */
#define STRUCT(type, size, alignment) _Static_assert(sizeof(type) == (size) && _Alignof(type) == (alignment), #type)
#define FIELD(type, field, place, kind) \
    _Static_assert(offsetof(type, field) == (place) && _Generic(((type *)NULL)->field, kind: 1, default: 0), #type "." #field)

STRUCT(affedit_dictionary, 16, 8);
FIELD(affedit_dictionary, held, 0, void *);
FIELD(affedit_dictionary, is_open, 8, _Bool);

STRUCT(affedit_fault, 16, 8);
FIELD(affedit_fault, line, 0, uint64_t);
FIELD(affedit_fault, file, 8, uint32_t);
FIELD(affedit_fault, cause, 12, uint32_t);

STRUCT(affedit_mark, 8, 4);
FIELD(affedit_mark, from, 0, uint32_t);
FIELD(affedit_mark, to, 4, uint32_t);

/* A constant, whose name tests/c.sh looks for in this very form. */
#define CONSTANT(name, value) _Static_assert((name) == (value), #name)

CONSTANT(AFFEDIT_DONE, 0);
CONSTANT(AFFEDIT_KNOWN, 1);
CONSTANT(AFFEDIT_UNKNOWN, 2);
CONSTANT(AFFEDIT_FAULTY, 3);
CONSTANT(AFFEDIT_BLANK, 4);
CONSTANT(AFFEDIT_EMPTY_WORD, 5);
CONSTANT(AFFEDIT_TOO_MANY, 6);
CONSTANT(AFFEDIT_NOT_UTF8, 7);
CONSTANT(AFFEDIT_TOO_LONG, 8);
CONSTANT(AFFEDIT_CLOSED, 9);
CONSTANT(AFFEDIT_NO_MEMORY, 10);
CONSTANT(AFFEDIT_BAD_UNIT, 11);

CONSTANT(AFFEDIT_BYTES, 0);
CONSTANT(AFFEDIT_UTF16, 1);
CONSTANT(AFFEDIT_CHARACTERS, 2);

CONSTANT(AFFEDIT_AFF_FILE, 1);
CONSTANT(AFFEDIT_DIC_FILE, 2);
CONSTANT(AFFEDIT_OWN_FILE, 3);

CONSTANT(AFFEDIT_AFF_NOT_UTF8, 1);
CONSTANT(AFFEDIT_AFF_OTHER_ENCODING, 2);
CONSTANT(AFFEDIT_AFF_LEFT_OUT, 3);
CONSTANT(AFFEDIT_AFF_MISSING_FIELD, 4);
CONSTANT(AFFEDIT_AFF_TWICE, 5);
CONSTANT(AFFEDIT_AFF_BAD_NUMBER, 6);
CONSTANT(AFFEDIT_AFF_TOO_MANY, 7);
CONSTANT(AFFEDIT_AFF_TABLE_SHORT, 8);
CONSTANT(AFFEDIT_AFF_OTHER_FLAG, 9);
CONSTANT(AFFEDIT_AFF_BAD_CROSS, 10);
CONSTANT(AFFEDIT_AFF_BAD_FLAG, 11);
CONSTANT(AFFEDIT_AFF_BAD_ALIAS, 12);
CONSTANT(AFFEDIT_AFF_BAD_CONDITION, 13);
CONSTANT(AFFEDIT_AFF_BAD_PATTERN, 14);

CONSTANT(AFFEDIT_DIC_NOT_UTF8, 1);
CONSTANT(AFFEDIT_DIC_BAD_COUNT, 2);
CONSTANT(AFFEDIT_DIC_EMPTY_WORD, 3);
CONSTANT(AFFEDIT_DIC_BAD_FLAG, 4);
CONSTANT(AFFEDIT_DIC_BAD_ALIAS, 5);
CONSTANT(AFFEDIT_DIC_TOO_MANY, 6);

CONSTANT(AFFEDIT_OWN_NOT_UTF8, 1);
CONSTANT(AFFEDIT_OWN_EMPTY_WORD, 2);
CONSTANT(AFFEDIT_OWN_TOO_MANY, 3);

/* A function, by its whole type. */
#define FUNCTION(name, ...) _Static_assert(_Generic(&name, __VA_ARGS__: 1, default: 0), #name)

FUNCTION(affedit_version, uint32_t (*)(void));
FUNCTION(affedit_cause, size_t (*)(const affedit_fault *, uint8_t *, size_t));
FUNCTION(affedit_open, uint32_t (*)(const uint8_t *, size_t, const uint8_t *, size_t, affedit_dictionary *, affedit_fault *));
FUNCTION(affedit_close, void (*)(affedit_dictionary *));
FUNCTION(affedit_share, uint32_t (*)(affedit_dictionary *, affedit_dictionary *));
FUNCTION(affedit_word, uint32_t (*)(affedit_dictionary *, const uint8_t *, size_t));
FUNCTION(affedit_marks, uint32_t (*)(affedit_dictionary *, const uint8_t *, size_t, affedit_mark *, size_t, size_t *));
FUNCTION(affedit_marks_in,
         uint32_t (*)(affedit_dictionary *, const uint8_t *, size_t, uint32_t, size_t, affedit_mark *, size_t, size_t *));
FUNCTION(affedit_word_characters, uint32_t (*)(affedit_dictionary *, uint32_t *, size_t, size_t *));
FUNCTION(affedit_add, uint32_t (*)(affedit_dictionary *, const uint8_t *, size_t));
FUNCTION(affedit_list, uint32_t (*)(affedit_dictionary *, const uint8_t *, size_t, affedit_fault *));

/* What programs have of AFFEDIT_CLOSED_HANDLE: a null pointer, and false. A field more, even in the padding, would have no value here, which is an error. */
int main(void) {
    affedit_dictionary closed = AFFEDIT_CLOSED_HANDLE;
    affedit_fault fault = {1, 2, 3};
    affedit_mark mark = {1, 2};
    return closed.held != NULL || closed.is_open || fault.cause != 3 || mark.to != 2;
}
