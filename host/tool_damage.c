/* decklewren damage N [--seed S]: a row of bits with N different places inverted, as a radio that decides bits wrongly does. */
#include "tool.h"
#include <stdio.h>

/* The next number of the generator SplitMix64. */
static uint64_t next(uint64_t *state) {
    *state += 0x9E3779B97F4A7C15u;
    uint64_t z = *state;
    z = (z ^ (z >> 30)) * 0xBF58476D1CE4E5B9u;
    z = (z ^ (z >> 27)) * 0x94D049BB133111EBu;
    return z ^ (z >> 31);
}

/* Inverts `count` different places of the row. Each is drawn from those that are left, and stands behind them from then on. */
static const size_t *invert(input *bits, size_t count, uint64_t seed) {
    static size_t left[INPUT_MOST];
    for (size_t place = 0; place < bits->count; place++) {
        left[place] = place;
    }
    for (size_t drawn = 0; drawn < count; drawn++) {
        size_t last = bits->count - drawn - 1;
        size_t at = (size_t)(next(&seed) % (last + 1));
        size_t place = left[at];
        left[at] = left[last];
        left[last] = place;
        bits->bytes[place] ^= 1;
    }
    return left;
}

/* The places in the order in which they were drawn: from the last one down. */
static void tell_places(const size_t *places, size_t length, size_t count) {
    for (size_t drawn = 0; drawn < count; drawn++) {
        fprintf(stderr, "%s%zu", drawn == 0 ? "" : ",", places[length - drawn - 1]);
    }
    fprintf(stderr, "\n");
}

int run_damage(const request *asked) {
    static input bits;
    int taken = take_bits(&bits);
    if (taken != ENDED_WELL) {
        return taken;
    }
    if (other_place(&bits) < bits.count) {
        fprintf(stderr, "decklewren: character %zu of standard input is %s, neither 0 nor 1\n", other_place(&bits) + 1,
                other_name(&bits));
        return REFUSED;
    }
    if (asked->number > bits.count) {
        fprintf(stderr, "decklewren: more places to invert than the %zu bits that came\n", bits.count);
        return REFUSED;
    }
    size_t count = (size_t)asked->number;
    const size_t *places = invert(&bits, count, asked->seed);
    put_bits(bits.bytes, bits.count);
    int ended = end_well("count=%zu seed=%llu places=", count, (unsigned long long)asked->seed);
    if (ended == ENDED_WELL) {
        tell_places(places, bits.count, count);
    }
    return ended;
}
