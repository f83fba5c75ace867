#include "decklewren.h"
#include <stdio.h>

int main(void) {
    uint8_t bits[32];
    decklewren_written written = decklewren_write_word(5, bits, sizeof bits);
    bits[0] ^= 1;
    decklewren_word word = decklewren_read_word(bits, written.count);
    printf("status %u, link %u, wrong %u\n", (unsigned)word.status, (unsigned)word.number, (unsigned)word.wrong);
    return 0;
}
