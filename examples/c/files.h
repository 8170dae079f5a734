/* What the examples in C share: the bytes of a file, and the dictionary of two files. Each ends the program with status 2 where that fails. */
#ifndef FILES_H
#define FILES_H

#include <affedit.h>
#include <errno.h>
#include <stdio.h>
#include <stdlib.h>
#include <string.h>

typedef struct {
    uint8_t *bytes;
    size_t length;
} text;

static inline _Noreturn void fail(const char *what, const char *why) {
    fprintf(stderr, "%s: %s\n", what, why);
    exit(2);
}

/* The bytes of a file, which the caller frees. They are never at NULL, also where the file is empty. */
static inline text read_file(const char *name) {
    text all = {NULL, 0};
    size_t room = 0, count;
    FILE *file = fopen(name, "rb");
    if (!file) fail(name, strerror(errno));
    do {
        if (all.length == room) {
            room = room ? 2 * room : 4096;
            all.bytes = realloc(all.bytes, room);
            if (!all.bytes) fail(name, "there is too little memory");
        }
        count = fread(all.bytes + all.length, 1, room - all.length, file);
        all.length += count;
    } while (count > 0);
    if (ferror(file)) fail(name, "it cannot be read");
    fclose(file);
    return all;
}

/* A handle on the dictionary of two files, which the caller closes. */
static inline affedit_dictionary open_dictionary(const char *aff_name, const char *dic_name) {
    affedit_dictionary dictionary = AFFEDIT_CLOSED_HANDLE;
    affedit_fault fault = {0};
    text aff = read_file(aff_name), dic = read_file(dic_name);
    uint32_t answer = affedit_open(aff.bytes, aff.length, dic.bytes, dic.length, &dictionary, &fault);
    free(aff.bytes);
    free(dic.bytes);
    if (answer == AFFEDIT_FAULTY) {
        uint8_t why[200] = {0};
        size_t length = affedit_cause(&fault, why, sizeof why);
        fprintf(stderr, "%s:%llu: %.*s\n", fault.file == AFFEDIT_AFF_FILE ? aff_name : dic_name, (unsigned long long)fault.line,
                (int)(length < sizeof why ? length : sizeof why), (const char *)why);
        exit(2);
    }
    if (answer != AFFEDIT_DONE) fail(dic_name, "there is too little memory");
    return dictionary;
}

#endif
