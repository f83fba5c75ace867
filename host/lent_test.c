/* What the header says of the buffers that a caller lends: where a length is 0 the pointer may be NULL, for every call and every
   pointer that has a length, and a buffer may begin at any address. The last line counts, 'N passed, M failed'. */
#include "decklewren.h"
#include <stdio.h>
#include <string.h>

static unsigned passed, failed;

static void expect(const char *what, uint32_t link, uint64_t expected, uint64_t got) {
    if (expected == got) {
        passed++;
        return;
    }
    failed++;
    printf("%s, link %u: expected %llu, got %llu\n", what, (unsigned)link, (unsigned long long)expected, (unsigned long long)got);
}

static uint8_t datagram[DECKLEWREN_HELD_MOST], bits[DECKLEWREN_IMAGE_MOST], out[DECKLEWREN_IMAGE_MOST];

static void check_null_words(void) {
    expect("write_word, out NULL", 5, DECKLEWREN_NO_ROOM, decklewren_write_word(5, NULL, 0).status);
    expect("write_word, out NULL", 64, DECKLEWREN_NOT_OFFERED, decklewren_write_word(64, NULL, 0).status);
    expect("read_word, bits NULL", 0, DECKLEWREN_WRONG_LENGTH, decklewren_read_word(NULL, 0).status);
}

/* The empty datagram at NULL is the empty datagram: its image is that of one that points somewhere. */
static void check_null_blocks(uint32_t link, size_t held, size_t image) {
    expect("write_block", link, image, decklewren_write_block(link, datagram, 0, bits, sizeof bits).count);
    expect("write_block, datagram NULL", link, image, decklewren_write_block(link, NULL, 0, out, sizeof out).count);
    expect("write_block, images equal", link, 0, (uint64_t)memcmp(bits, out, image));
    expect("write_block, out NULL", link, DECKLEWREN_NO_ROOM, decklewren_write_block(link, datagram, held, NULL, 0).status);
    expect("write_block, both NULL", link, DECKLEWREN_NO_ROOM, decklewren_write_block(link, NULL, 0, NULL, 0).status);
    expect("read_block, bits NULL", link, DECKLEWREN_WRONG_LENGTH, decklewren_read_block(link, NULL, 0, out, sizeof out).status);
    expect("read_block, out NULL", link, DECKLEWREN_NO_ROOM, decklewren_read_block(link, bits, image, NULL, 0).status);
    expect("read_block, both NULL", link, DECKLEWREN_WRONG_LENGTH, decklewren_read_block(link, NULL, 0, NULL, 0).status);
}

static void check_null_slots(uint32_t link, size_t held, size_t burst) {
    expect("write_slot", link, burst, decklewren_write_slot(link, datagram, 0, bits, sizeof bits).count);
    expect("write_slot, datagram NULL", link, burst, decklewren_write_slot(link, NULL, 0, out, sizeof out).count);
    expect("write_slot, bursts equal", link, 0, (uint64_t)memcmp(bits, out, burst));
    expect("write_slot, out NULL", link, DECKLEWREN_NO_ROOM, decklewren_write_slot(link, datagram, held, NULL, 0).status);
    expect("write_slot, both NULL", link, DECKLEWREN_NO_ROOM, decklewren_write_slot(link, NULL, 0, NULL, 0).status);
    expect("read_slot, bits NULL", link, DECKLEWREN_WRONG_LENGTH, decklewren_read_slot(NULL, 0, out, sizeof out).status);
    expect("read_slot, out NULL", link, DECKLEWREN_NO_ROOM, decklewren_read_slot(bits, burst, NULL, 0).status);
    expect("read_slot, both NULL", link, DECKLEWREN_WRONG_LENGTH, decklewren_read_slot(NULL, 0, NULL, 0).status);
}

/* An empty part at NULL changes nothing; a burst in parts needs room as a whole one does, and is gone afterwards. */
static void check_null_parts(uint32_t link, size_t burst) {
    decklewren_parts parts = {0}, before = {0};
    decklewren_write_slot(link, datagram, 0, bits, burst);
    decklewren_parts_take(&parts, NULL, 0);
    expect("take_part, part NULL, fresh", link, 0, (uint64_t)memcmp(&parts, &before, sizeof parts));
    decklewren_parts_take(&parts, bits, burst);
    before = parts;
    decklewren_parts_take(&parts, NULL, 0);
    expect("take_part, part NULL", link, 0, (uint64_t)memcmp(&parts, &before, sizeof parts));
    expect("read_parts, out NULL", link, DECKLEWREN_NO_ROOM, decklewren_parts_read(&parts, NULL, 0).status);
    expect("read_parts, out NULL, nothing came", link, DECKLEWREN_WRONG_LENGTH, decklewren_parts_read(&parts, NULL, 0).status);
}

static void check_null_elsewhere(void) {
    expect("write_block, no such link", 63, DECKLEWREN_NOT_OFFERED, decklewren_write_block(63, NULL, 0, NULL, 0).status);
    expect("read_block, no such link", 63, DECKLEWREN_NOT_OFFERED, decklewren_read_block(63, NULL, 0, NULL, 0).status);
    expect("write_slot, no such link", 8, DECKLEWREN_NOT_OFFERED, decklewren_write_slot(8, NULL, 0, NULL, 0).status);
    decklewren_step step = decklewren_step_message(NULL, 0, 0);
    expect("step_message at 0, finished", 0, DECKLEWREN_DONE, step.status + step.start + step.length + step.missing);
    expect("step_message at 1", 0, DECKLEWREN_PAST_END, decklewren_step_message(NULL, 0, 1).status);
    expect("step_message at the largest", 0, DECKLEWREN_PAST_END, decklewren_step_message(NULL, 0, SIZE_MAX).status);
}

/* A message without a body at NULL is one without a body; a datagram at NULL has room for no message and for no zero. */
static void check_null_messages(void) {
    static const uint8_t message[DECKLEWREN_MESSAGE_HEAD] = {74, 0, 7, 0, 0, 0, 1};
    expect("write_message, body NULL", 0, sizeof message, decklewren_write_message(out, sizeof message, 0, 74, 1, NULL, 0).count);
    expect("write_message, its bytes", 0, 0, (uint64_t)memcmp(out, message, sizeof message));
    expect("write_message, datagram NULL", 0, DECKLEWREN_NO_ROOM, decklewren_write_message(NULL, 0, 0, 74, 1, message, 7).status);
    expect("write_message, both NULL", 0, DECKLEWREN_NO_ROOM, decklewren_write_message(NULL, 0, 0, 74, 1, NULL, 0).status);
    expect("write_message, no type", 0, DECKLEWREN_NO_TYPE, decklewren_write_message(NULL, 0, 0, 81, 1, NULL, 0).status);
    expect("write_message at 1", 0, DECKLEWREN_PAST_END, decklewren_write_message(NULL, 0, 1, 81, 1, NULL, 0).status);
    expect("write_message at the largest", 0, DECKLEWREN_PAST_END,
           decklewren_write_message(NULL, 0, SIZE_MAX, 74, 1, NULL, 0).status);
    decklewren_laid zeros = decklewren_zero_fill(NULL, 0, 0);
    expect("zero_fill at 0, done", 0, DECKLEWREN_DONE, zeros.status + zeros.count);
    expect("zero_fill at 1", 0, DECKLEWREN_PAST_END, decklewren_zero_fill(NULL, 0, 1).status);
    expect("zero_fill at the largest", 0, DECKLEWREN_PAST_END, decklewren_zero_fill(NULL, 0, SIZE_MAX).status);
}

/* A burst written and read, and a message found, with every buffer this many bytes behind an address that 64 divides. */
static void check_address(size_t off) {
    static _Alignas(64) uint8_t row[DECKLEWREN_BURST_MOST + 64], from[DECKLEWREN_HELD_7 + 64], to[DECKLEWREN_HELD_7 + 64];
    uint32_t at = (uint32_t)off;
    const uint8_t message[8] = {74, 0, 7, 0, 0, 0, 1, 81};
    for (size_t n = 0; n < DECKLEWREN_HELD_7; n++) from[off + n] = (uint8_t)(n * 37);
    memcpy(from + off, message, sizeof message);
    expect("write_slot at an address", at, DECKLEWREN_BURST_7,
           decklewren_write_slot(7, from + off, DECKLEWREN_HELD_7, row + off, DECKLEWREN_BURST_7).count);
    row[off + 700] ^= 1;
    expect("read_slot at an address", at, 1, decklewren_read_slot(row + off, DECKLEWREN_BURST_7, to + off, DECKLEWREN_HELD_7).wrong);
    expect("read_slot, equal bytes", at, 0, (uint64_t)memcmp(from + off, to + off, DECKLEWREN_HELD_7));
    expect("read_word at an address", at, 7, decklewren_read_word(row + off + DECKLEWREN_TRAINING_BITS, DECKLEWREN_WORD_BITS).number);
    expect("step_message at an address", at, 7, decklewren_step_message(to + off, DECKLEWREN_HELD_7, 0).length);
}

/* A burst in parts, with its state's bits and every buffer this many bytes behind an address that 64 divides. */
static void check_parts_address(size_t off) {
    static _Alignas(64) uint8_t row[DECKLEWREN_BURST_MOST + 64], state[DECKLEWREN_BURST_MOST + 64], to[DECKLEWREN_HELD_7 + 64];
    uint32_t at = (uint32_t)off, count = 0;
    decklewren_write_slot(7, NULL, 0, row + off, DECKLEWREN_BURST_7);
    decklewren_take_part(&count, state + off, row + off, 700);
    decklewren_take_part(&count, state + off, row + off + 700, DECKLEWREN_BURST_7 - 700);
    expect("take_part at an address", at, DECKLEWREN_BURST_7, count);
    expect("take_part, equal bits", at, 0, (uint64_t)memcmp(row + off, state + off, DECKLEWREN_BURST_7));
    expect("read_parts at an address", at, DECKLEWREN_HELD_7,
           decklewren_read_parts(&count, state + off, to + off, DECKLEWREN_HELD_7).count);
    memset(row, 0, sizeof row);
    expect("read_parts, bits cleared", at, 0, (uint64_t)memcmp(row, state, sizeof state));
}

/* A message and zeros laid, with the datagram and the body this many bytes behind an address that 64 divides. */
static void check_laying_address(size_t off) {
    static _Alignas(64) uint8_t to[100 + 64], from[80 + 64];
    uint32_t at = (uint32_t)off;
    for (size_t n = 0; n < 80; n++) from[off + n] = (uint8_t)(n * 37 + off);
    memset(to, 9, sizeof to);
    expect("write_message at an address", at, 87, decklewren_write_message(to + off, 100, 5, 74, 1, from + off, 80).count);
    expect("write_message, equal bytes", at, 0, (uint64_t)memcmp(to + off + 12, from + off, 80));
    expect("step_message behind it", at, 87, decklewren_step_message(to + off, 100, 5).length);
    expect("zero_fill at an address", at, 8, decklewren_zero_fill(to + off, 100, 92).count);
    expect("step_message, finished", at, 0, decklewren_step_message(to + off, 100, 92).status);
    expect("bytes around them", at, 9 + 9, (uint64_t)to[off + 4] + to[off + 100]);
}

int main(void) {
    check_null_words();
#define NULL_BLOCKS(link, held, image) check_null_blocks(link, held, image);
    DECKLEWREN_LINKS(NULL_BLOCKS)
#define NULL_SLOTS(link, burst) check_null_slots(link, DECKLEWREN_HELD_##link, burst);
    DECKLEWREN_SLOT_LINKS(NULL_SLOTS)
#define NULL_PARTS(link, burst) check_null_parts(link, burst);
    DECKLEWREN_SLOT_LINKS(NULL_PARTS)
    check_null_elsewhere();
    check_null_messages();
    for (size_t off = 0; off < 64; off++) check_address(off);
    for (size_t off = 0; off < 64; off++) check_parts_address(off);
    for (size_t off = 0; off < 64; off++) check_laying_address(off);
    printf("%u passed, %u failed\n", passed, failed);
    return failed != 0;
}
