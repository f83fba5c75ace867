/* The bench host (document 01, "What the module does"): written in C, it calls the block reader and writer on numbers and byte
   buffers, on every link, and checks each answer. The first that is not as it should be ends it with status 1. Every buffer
   is one of its own and just as long as it is said to be, so that AddressSanitizer sees this program step over an end; the
   archive itself is not compiled with it, and the cross-check lends it buffers between guard pages instead. */
#include "decklewren.h"
#include <stdio.h>
#include <stdlib.h>
#include <string.h>

/* What lies in a lent buffer before a call. */
enum { OLD = 0xA5 };

static unsigned long written_blocks, read_blocks, refusals;

static void expect(const char *call, uint32_t link, const char *what, unsigned long expected, unsigned long got) {
    if (expected != got) {
        fprintf(stderr, "bench host: %s, link %u: %s: expected %lu, got %lu\n", call, (unsigned)link, what, expected, got);
        exit(1);
    }
}

/* A buffer of its own of this many bytes, all OLD. */
static uint8_t *lent(size_t length) {
    uint8_t *buffer = malloc(length > 0 ? length : 1);
    if (buffer == NULL) {
        fprintf(stderr, "bench host: no memory\n");
        exit(1);
    }
    memset(buffer, OLD, length);
    return buffer;
}

static void expect_old(const char *call, uint32_t link, const uint8_t *buffer, size_t from, size_t length) {
    for (size_t at = from; at < length; at++) expect(call, link, "a byte that was to stay", OLD, buffer[at]);
}

/* The bytes of the datagrams of a link. */
static uint8_t byte_at(uint32_t link, size_t at) { return (uint8_t)(at * 37 + link); }

/* Writes a block into a buffer of this length, and answers the buffer. */
static uint8_t *write_block(uint32_t link, size_t datagram_len, size_t out_len, uint32_t status, size_t count) {
    uint8_t *datagram = lent(datagram_len), *out = lent(out_len);
    for (size_t at = 0; at < datagram_len; at++) datagram[at] = byte_at(link, at);
    decklewren_written written = decklewren_write_block(link, datagram, datagram_len, out, out_len);
    expect("write_block", link, "status", status, written.status);
    expect("write_block", link, "count", count, written.count);
    expect_old("write_block", link, out, count, out_len);
    *(status == DECKLEWREN_DONE ? &written_blocks : &refusals) += 1;
    free(datagram);
    return out;
}

/* Reads a block that holds the first `datagram_len` bytes of the link's datagram and zeros behind them. */
static void read_block(uint32_t link, const uint8_t *bits, size_t held, size_t image, size_t datagram_len, uint32_t wrong) {
    uint8_t *out = lent(held + 1);
    decklewren_block block = decklewren_read_block(link, bits, image, out, held + 1);
    expect("read_block", link, "status", DECKLEWREN_DONE, block.status);
    expect("read_block", link, "count", held, block.count);
    expect("read_block", link, "wrong", wrong, block.wrong);
    for (size_t at = 0; at < held; at++) {
        expect("read_block", link, "a byte read", at < datagram_len ? byte_at(link, at) : 0, out[at]);
    }
    expect_old("read_block", link, out, held, held + 1);
    read_blocks++;
    free(out);
}

/* A reading that is refused with this number, and leaves the buffer as it was. */
static void refuse_reading(uint32_t link, const uint8_t *bits, size_t bits_len, size_t out_len, uint32_t status) {
    uint8_t *out = lent(out_len);
    decklewren_block block = decklewren_read_block(link, bits, bits_len, out, out_len);
    expect("read_block", link, "status", status, block.status);
    expect("read_block", link, "count of a refusal", 0, block.count);
    expect("read_block", link, "wrong of a refusal", 0, block.wrong);
    expect_old("read_block", link, out, 0, out_len);
    refusals++;
    free(out);
}

/* What is written is read back, whole and with any one bit wrong: each in turn on short links, every 97th on long ones. */
static void check_reading(uint32_t link, size_t held, size_t image, size_t datagram_len) {
    uint8_t *bits = write_block(link, datagram_len, image, DECKLEWREN_DONE, image);
    read_block(link, bits, held, image, datagram_len, 0);
    for (size_t place = 0; place < image; place += image < 1000 ? 1 : 97) {
        bits[place] ^= 1;
        read_block(link, bits, held, image, datagram_len, 1);
        bits[place] ^= 1;
    }
    free(bits);
}

/* Each refusal of document 01's lists for blocks ("Numbers a caller gets back"). */
static void check_refusals(uint32_t link, size_t held, size_t image) {
    free(write_block(link + 256, held, image, DECKLEWREN_NOT_OFFERED, 0));
    free(write_block(link, held + 1, image, DECKLEWREN_WRONG_LENGTH, 0));
    free(write_block(link, held, image - 1, DECKLEWREN_NO_ROOM, 0));
    uint8_t *bits = write_block(link, held, image, DECKLEWREN_DONE, image);
    refuse_reading(link + 256, bits, image, held, DECKLEWREN_NOT_OFFERED);
    refuse_reading(link, bits, image - 1, held, DECKLEWREN_WRONG_LENGTH);
    refuse_reading(link, bits, image, held - 1, DECKLEWREN_NO_ROOM);
    bits[0] ^= 1;
    bits[image / 2] ^= 1;
    refuse_reading(link, bits, image, held, DECKLEWREN_NO_BLOCK);
    bits[image - 1] = 2;
    refuse_reading(link, bits, image, held, DECKLEWREN_NO_BIT);
    free(bits);
}

static void check_link(uint32_t link, size_t held, size_t image) {
    const size_t lengths[] = {0, 1, held / 2, held};
    for (size_t n = 0; n < sizeof lengths / sizeof *lengths; n++) check_reading(link, held, image, lengths[n]);
    check_refusals(link, held, image);
    free(write_block(link, held, image + 9, DECKLEWREN_DONE, image));
}

int main(void) {
#define CHECK_LINK(link, held, image) check_link(link, held, image);
    DECKLEWREN_LINKS(CHECK_LINK)
    printf("bench host: %lu blocks written, %lu read, ", written_blocks, read_blocks);
    printf("%lu requests refused, all as they should be\n", refusals);
    return 0;
}
