/*
 * Prints what each refusal means, a line for a number from 0 to 16, so that the tests can compare the header's words with
 * the user guide's.
 */
#include "danivomel.h"
#include <stdio.h>

int main(void) {
    for (uint64_t number = 0; number <= 16; number++) {
        printf("%s\n", danivomel_words(number));
    }
    printf("%s\n", danivomel_words(UINT64_MAX));
    return 0;
}
