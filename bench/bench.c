/* Compares the library with the plain writer of plain.c, both in one run: nanoseconds per block, median of many rounds, and the
   ratio. The blocks of a round are all different, so that a processor cannot learn their bits. Then slot bursts by parts. */
#include "bench.h"
#include "decklewren.h"
#include "plain.h"
#include <stdio.h>
#include <stdlib.h>
#include <string.h>

enum { MOST = 200, LONGEST = DECKLEWREN_IMAGE_MOST, HELD = DECKLEWREN_HELD_MOST };

static uint8_t datagrams[MOST][HELD], came[MOST][LONGEST], plain_image[LONGEST], image[LONGEST], out[HELD];
static size_t came_length;
static decklewren_block block;

static void write_plain(uint32_t link, size_t held, int i) { plain_write_block(link, datagrams[i], held, plain_image); }
static void write_proved(uint32_t link, size_t held, int i) { decklewren_write_block(link, datagrams[i], held, image, sizeof image); }
static void read_proved(uint32_t link, size_t held, int i) { block = decklewren_read_block(link, came[i], came_length, out, held); }

static void prepare_nothing(void) {}

/* The plain writer and a call. */
static void measure(uint32_t link, size_t held, int blocks, call *measured) {
    medians of = in_turn(link, held, blocks, write_plain, measured, prepare_nothing);
    printf("plain %8.0f ns, proved %8.0f ns, ratio %.2f\n", of.first, of.second, of.second / of.first);
}

static void measure_writing(uint32_t link, size_t held, int blocks) {
    for (int i = 0; i < blocks; i++) {
        write_plain(link, held, i);
        write_proved(link, held, i);
        if (memcmp(plain_image, image, sizeof image) != 0) {
            printf("link %u: the two images differ\n", (unsigned)link);
            exit(1);
        }
    }
    printf("write link %2u:                 ", (unsigned)link);
    measure(link, held, blocks, write_proved);
}

/* Inverts a place of all that came. */
static void damage(int blocks, size_t place) {
    for (int i = 0; i < blocks; i++) came[i][place] ^= 1;
}

/* Reads all that came, each of which must give this status and this count of wrong places, and then measures it. */
static void measure_reading(const char *what, uint32_t link, size_t held, int blocks, uint32_t status, uint32_t wrong) {
    for (int i = 0; i < blocks; i++) {
        read_proved(link, held, i);
        if (block.status != status || block.wrong != wrong) {
            printf("link %u, %s: status %u, wrong %u\n", (unsigned)link, what, (unsigned)block.status, (unsigned)block.wrong);
            exit(1);
        }
    }
    printf("read  link %2u, %-16s", (unsigned)link, what);
    measure(link, held, blocks, read_proved);
}

/* The first bit of an image is the block's first, whose mark is found last; on links 5 and 19 the second is the first clock's Y1. */
static void measure_all_reading(uint32_t link, size_t held, int blocks) {
    for (int i = 0; i < blocks; i++) {
        came_length = decklewren_write_block(link, datagrams[i], held, came[i], sizeof came[i]).count;
    }
    measure_reading("clean:", link, held, blocks, 0, 0);
    damage(blocks, 0);
    measure_reading("data bit wrong:", link, held, blocks, 0, 1);
    damage(blocks, 1);
    measure_reading("two wrong:", link, held, blocks, 7, 0);
    damage(blocks, 0);
    measure_reading("parity wrong:", link, held, blocks, 0, 1);
    for (int i = 0; i < blocks; i++) {
        for (size_t at = 0; at < came_length; at++) came[i][at] = (uint8_t)(rand() >> 8 & 1);
    }
    measure_reading("random bits:", link, held, blocks, 7, 0);
}

int main(void) {
    for (int i = 0; i < MOST; i++) {
        for (size_t at = 0; at < sizeof datagrams[i]; at++) datagrams[i][at] = (uint8_t)(rand() >> 8);
    }
    measure_writing(5, DECKLEWREN_HELD_5, MOST);
    measure_writing(19, DECKLEWREN_HELD_19, 10);
    measure_all_reading(5, DECKLEWREN_HELD_5, MOST);
    measure_all_reading(19, DECKLEWREN_HELD_19, 10);
    measure_parts();
    return 0;
}
