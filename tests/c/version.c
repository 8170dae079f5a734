/* Prints the version that the header has, as a string and by its numbers, and that of the library. See tests/c.sh. */
#include <affedit.h>
#include <stdio.h>

int main(void) {
    uint32_t now = affedit_version();
    printf("%s %d.%d.%d %u.%u.%u\n", AFFEDIT_VERSION, AFFEDIT_VERSION_MAJOR, AFFEDIT_VERSION_MINOR, AFFEDIT_VERSION_PATCH, now / 1000000, now / 1000 % 1000,
           now % 1000);
    return now != AFFEDIT_VERSION_NUMBER;
}
