/* Prints each sentence for a fault, behind the numbers of the file and of the cause, and says what differs where there is less room or more. See tests/c.sh. */
#include <affedit.h>
#include <stdio.h>
#include <string.h>

enum { MOST = 200, UNTOUCHED = 0x7f };

static int failures;

/* Asks for a sentence that is known with room for so many bytes. */
static void ask_with_room(const affedit_fault *fault, const uint8_t *wanted, size_t length, size_t room) {
    uint8_t part[MOST + 1];
    memset(part, UNTOUCHED, sizeof part);
    size_t told = affedit_cause(fault, part, room), written = room < length ? room : length;
    int differs = told != length || memcmp(part, wanted, written) != 0;
    for (size_t i = written; i < sizeof part; i++) differs |= part[i] != UNTOUCHED;
    if (!differs) return;
    printf("causes.c: file %u, cause %u, room for %zu: %zu told of %zu\n", fault->file, fault->cause, room, told, length);
    failures++;
}

int main(void) {
    static const uint32_t causes[] = {0, 1, 2, 3, 4, 5, 6, 7, 8, 9, 10, 11, 12, 13, 14, 15, 1u << 31, UINT32_MAX};
    for (uint32_t file = 0; file <= 4; file++) {
        for (size_t i = 0; i < sizeof causes / sizeof *causes; i++) {
            affedit_fault fault = {7, file, causes[i]};
            uint8_t sentence[MOST] = {0};
            size_t length = affedit_cause(&fault, sentence, MOST);
            if (length > MOST) return printf("causes.c: %zu bytes\n", length), 1;
            for (size_t room = 0; room <= length + 1 && room <= MOST; room++) ask_with_room(&fault, sentence, length, room);
            if (length > 0) printf("%u %u %.*s\n", file, causes[i], (int)length, (const char *)sentence);
        }
    }
    return failures != 0;
}
