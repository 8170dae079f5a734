/*
 * Counts the marked words of several files at once: share_handle AFF DIC FILE.. A thread checks each file, with a handle of its own on the one
 * dictionary. It prints FILE: COUNT, in the order of the files. The status is 0 if no word is marked, 1 if one is, and 2 if a file cannot be checked.
 *
 *     cc -pthread share_handle.c $(pkg-config --cflags --libs affedit) -o share_handle
 */
#include "files.h"
#include <pthread.h>

/* What a thread has: a handle and a text of its own, and what it finds. */
typedef struct {
    pthread_t thread;
    affedit_dictionary dictionary;
    text all;
    uint32_t answer;
    size_t count;
} job;

/* Counts the marks. There is room for none, but no pointer is NULL. */
static void *run(void *given) {
    job *own = given;
    affedit_mark unused = {0, 0};
    own->answer = affedit_marks(&own->dictionary, own->all.bytes, own->all.length, &unused, 0, &own->count);
    affedit_close(&own->dictionary);
    return NULL;
}

/* Starts a thread with a handle on the same dictionary. The start of a thread hands the handle over. */
static void start(job *own, affedit_dictionary *dictionary, const char *name) {
    own->dictionary = (affedit_dictionary)AFFEDIT_CLOSED_HANDLE;
    own->all = read_file(name);
    if (affedit_share(dictionary, &own->dictionary) != AFFEDIT_DONE) fail(name, "there is too little memory");
    int error = pthread_create(&own->thread, NULL, run, own);
    if (error) fail(name, strerror(error));
}

int main(int count, char **words) {
    if (count < 4) fail("usage", "share_handle AFF DIC FILE..");
    affedit_dictionary dictionary = open_dictionary(words[1], words[2]);
    int files = count - 3, status = 0;
    job *jobs = calloc((size_t)files, sizeof *jobs);
    if (!jobs) fail("share_handle", "there is too little memory");
    for (int i = 0; i < files; i++) start(&jobs[i], &dictionary, words[3 + i]);
    affedit_close(&dictionary);
    for (int i = 0; i < files; i++) {
        pthread_join(jobs[i].thread, NULL);
        free(jobs[i].all.bytes);
        if (jobs[i].answer != AFFEDIT_DONE) {
            fprintf(stderr, "%s: answer %u\n", words[3 + i], jobs[i].answer);
            status = 2;
            continue;
        }
        printf("%s: %zu\n", words[3 + i], jobs[i].count);
        if (status == 0 && jobs[i].count > 0) status = 1;
    }
    free(jobs);
    return status;
}
