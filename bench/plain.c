/* A straightforward block writer for links 5 and 19, from the document (M.2092-1, Annex 2, 1.2.4 to 1.2.6): the interleaver by
   division, the check bit by bit, one pass over the clocks, one bit to a byte. It is the yardstick of `make bench` and is not
   tuned. */
#include "plain.h"
#include <string.h>

typedef struct {
    uint32_t link, k, k1, k2;
    uint32_t primes[8];
    const uint8_t (*tail)[6];
} row;

static const uint8_t pattern_8[6][6] = {
    {1, 0, 1, 0, 0, 0}, {1, 0, 0, 0, 0, 0}, {1, 0, 0, 0, 0, 0},
    {1, 0, 0, 0, 0, 0}, {1, 0, 0, 0, 0, 0}, {1, 0, 0, 0, 0, 1},
};
static const uint8_t tail_8[6][6] = {
    {1, 0, 1, 0, 0, 0}, {1, 0, 1, 0, 0, 0}, {1, 0, 1, 0, 0, 0},
    {0, 0, 0, 1, 0, 1}, {0, 0, 0, 1, 0, 1}, {0, 0, 0, 1, 0, 1},
};
static const uint8_t tail_8b[6][6] = {
    {1, 0, 1, 0, 0, 0}, {1, 0, 1, 0, 0, 0}, {1, 0, 0, 0, 0, 0},
    {0, 0, 0, 1, 0, 1}, {0, 0, 0, 1, 0, 1}, {0, 0, 0, 1, 0, 0},
};
static const row rows[2] = {
    {5, 288, 2, 144, {47, 17, 233, 127, 239, 139, 199, 163}, tail_8b},
    {19, 5616, 16, 351, {137, 101, 223, 41, 67, 131, 61, 47}, tail_8},
};

/* The second encoder's s-th input is bit position(s); both count from 1. */
static uint32_t position(const row *r, uint32_t s) {
    uint32_t m = (s - 1) % 2;
    uint32_t i = (s - 1) / (2 * r->k2);
    uint32_t j = (s - 1) / 2 - i * r->k2;
    uint32_t t = (19 * i + 1) % (r->k1 / 2);
    uint32_t q = t % 8 + 1;
    uint32_t c = (r->primes[q - 1] * j + 21 * m) % r->k2;
    return 2 * (t + c * (r->k1 / 2) + 1) - m;
}

/* The datagram zero-filled, then its check. */
static void block_bits(const row *r, const uint8_t *datagram, size_t datagram_len, uint8_t *u) {
    uint32_t check = 0xFFFFFFFF;
    for (uint32_t i = 0; i < r->k - 32; i++) {
        u[i] = i / 8 < datagram_len ? datagram[i / 8] >> (7 - i % 8) & 1 : 0;
        uint32_t top = check >> 31 ^ u[i];
        check = check << 1 ^ (top ? 0x04C11DB7 : 0);
    }
    for (uint32_t i = 0; i < 32; i++) {
        u[r->k - 32 + i] = check >> (31 - i) & 1;
    }
}

typedef struct {
    uint8_t a1, a2, a3;
} encoder;

/* One clock of an encoder: X, Y0, Y1. */
static void clock(encoder *e, uint8_t u, uint8_t *six) {
    uint8_t a = u ^ e->a2 ^ e->a3;
    six[0] = u;
    six[1] = a ^ e->a1 ^ e->a3;
    six[2] = a ^ e->a1 ^ e->a2 ^ e->a3;
    e->a3 = e->a2;
    e->a2 = e->a1;
    e->a1 = a;
}

typedef struct {
    uint8_t *out;
    size_t count;
    uint16_t cells; /* cell 1 is the lowest bit */
} sink;

/* What the flags pass on, scrambled. */
static void put(sink *to, const uint8_t *flags, const uint8_t *six) {
    for (int x = 0; x < 6; x++) {
        for (int copy = 0; copy < flags[x]; copy++) {
            uint16_t b = (to->cells >> 13 ^ to->cells >> 14) & 1;
            to->cells = (uint16_t)(to->cells << 1 | b);
            to->out[to->count++] = six[x] ^ b;
        }
    }
}

size_t plain_write_block(uint32_t link, const uint8_t *datagram, size_t datagram_len, uint8_t *out) {
    const row *r = link == 5 ? &rows[0] : link == 19 ? &rows[1] : NULL;
    if (r == NULL) {
        return 0;
    }
    uint8_t u[5616];
    block_bits(r, datagram, datagram_len, u);
    encoder first = {0, 0, 0}, second = {0, 0, 0};
    sink to = {out, 0, 0xA9}; /* 100101010000000, cell 1 first */
    uint8_t six[6];
    for (uint32_t s = 1; s <= r->k; s++) {
        clock(&first, u[s - 1], six);
        clock(&second, u[position(r, s) - 1], six + 3);
        put(&to, pattern_8[(s - 1) % 6], six);
    }
    for (int t = 0; t < 6; t++) {
        encoder *e = t < 3 ? &first : &second;
        memset(six, 0, sizeof six);
        clock(e, e->a2 ^ e->a3, t < 3 ? six : six + 3);
        put(&to, r->tail[t], six);
    }
    return to.count;
}
