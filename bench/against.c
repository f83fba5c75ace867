/* This archive against another, say that of the landing before, both in one run: the other's calls are linked under other names. First
   all links' images of random datagrams are compared, and what is read of them; then writing and reading are measured in turn. */
#include "bench.h"
#include "decklewren.h"
#include <stdio.h>
#include <stdlib.h>
#include <string.h>

enum { MOST = 200, LONGEST = DECKLEWREN_IMAGE_MOST, HELD = DECKLEWREN_HELD_MOST };

decklewren_written other_write_block(uint32_t link, const uint8_t *datagram, size_t datagram_len, uint8_t *out, size_t out_len);
decklewren_block other_read_block(uint32_t link, const uint8_t *image, size_t image_len, uint8_t *out, size_t out_len);

static uint8_t datagrams[MOST][HELD], came[MOST][LONGEST], other_image[LONGEST], image[LONGEST], other_out[HELD], out[HELD];
static decklewren_written written, other_written;
static decklewren_block read, other_read;
static size_t length;

static void write_this(uint32_t link, size_t held, int i) { written = decklewren_write_block(link, datagrams[i], held, image, LONGEST); }
static void write_other(uint32_t link, size_t held, int i) { other_written = other_write_block(link, datagrams[i], held, other_image, LONGEST); }
static void read_this(uint32_t link, size_t held, int i) { read = decklewren_read_block(link, came[i], length, out, held); }
static void read_other(uint32_t link, size_t held, int i) { other_read = other_read_block(link, came[i], length, other_out, held); }

static void prepare_nothing(void) {}

/* Ends the program where the two archives answer or write otherwise. Images are left in `came`. */
static void compare(uint32_t link, size_t held, size_t bits) {
    length = bits;
    for (int i = 0; i < MOST; i++) {
        write_this(link, held, i);
        write_other(link, held, i);
        memcpy(came[i], image, bits);
        came[i][(size_t)rand() % bits] ^= i % 2;
        read_this(link, held, i);
        read_other(link, held, i);
        if (memcmp(&written, &other_written, sizeof written) != 0 || memcmp(image, other_image, LONGEST) != 0 ||
            memcmp(&read, &other_read, sizeof read) != 0 || memcmp(out, other_out, HELD) != 0) {
            printf("link %u: the two archives differ\n", (unsigned)link);
            exit(1);
        }
    }
}

static void measure(const char *what, uint32_t link, size_t held, int blocks, call *other, call *this) {
    medians of = in_turn(link, held, blocks, other, this, prepare_nothing);
    printf("%-5s link %2u: other %8.0f ns, this %8.0f ns, ratio %.2f\n", what, (unsigned)link, of.first, of.second, of.second / of.first);
}

static void measure_both(uint32_t link, size_t held, size_t bits, int blocks) {
    compare(link, held, bits);
    measure("write", link, held, blocks, write_other, write_this);
    measure("read", link, held, blocks, read_other, read_this);
}

int main(void) {
    for (int i = 0; i < MOST; i++) {
        for (size_t at = 0; at < HELD; at++) datagrams[i][at] = (uint8_t)(rand() >> 8);
    }
#define COMPARE(link, held, bits) compare(link, held, bits);
    DECKLEWREN_LINKS(COMPARE)
    measure_both(5, DECKLEWREN_HELD_5, DECKLEWREN_IMAGE_5, MOST);
    measure_both(19, DECKLEWREN_HELD_19, DECKLEWREN_IMAGE_19, 10);
    return 0;
}
