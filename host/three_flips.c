/* What becomes of bursts with three wrong bits, more than is mended where two or three of them are in the block: 10,000 slot bursts of
   link 6 with random datagrams, each with three random bits inverted. Counts those that are answered, and of these the ones with
   another datagram. */
#include "decklewren.h"
#include <stdio.h>
#include <string.h>

enum { BURSTS = 10000, HELD = DECKLEWREN_HELD_6, BITS = DECKLEWREN_BURST_6 };

/* A number below `limit`: xorshift, so that every run is the same everywhere. */
static unsigned below(unsigned limit) {
    static uint32_t state = 1;
    state ^= state << 13;
    state ^= state >> 17;
    state ^= state << 5;
    return state % limit;
}

/* Inverts three different bits. */
static void damage(uint8_t *bits) {
    unsigned first = below(BITS), second = below(BITS), third = below(BITS);
    while (second == first) second = below(BITS);
    while (third == first || third == second) third = below(BITS);
    bits[first] ^= 1;
    bits[second] ^= 1;
    bits[third] ^= 1;
}

int main(void) {
    uint8_t datagram[HELD], bits[BITS], read[HELD];
    unsigned answered = 0, wrong = 0;
    for (int burst = 0; burst < BURSTS; burst++) {
        for (int at = 0; at < HELD; at++) datagram[at] = (uint8_t)below(256);
        decklewren_write_slot(6, datagram, HELD, bits, BITS);
        damage(bits);
        decklewren_slot slot = decklewren_read_slot(bits, BITS, read, HELD);
        if (slot.status != DECKLEWREN_DONE) continue;
        answered++;
        wrong += slot.link != 6 || memcmp(datagram, read, HELD) != 0;
    }
    printf("three bits wrong: %u answered, %u refused, %u mistaken\n", answered, BURSTS - answered, wrong);
    return 0;
}
