/* Writes what vine_check answers on the image on standard input: code, place, kind. */
#include "vine_ownership.h"

#include <inttypes.h>
#include <stdio.h>

_Static_assert(sizeof(struct vine_answer) == 12, "three numbers of 32 bits without gaps");

int main(void) {
    static uint8_t bytes[65536];
    size_t length = fread(bytes, 1, sizeof bytes, stdin);
    struct vine_answer answer = vine_check(bytes, length);
    printf("%" PRIu32 " %" PRIu32 " %" PRIu32 "\n", answer.code, answer.place, answer.kind);
    return 0;
}
