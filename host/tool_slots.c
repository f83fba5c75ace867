/* decklewren write-slot LINK, read-slot: slot bursts (document 01, "Slot bursts"). */
#include "tool.h"
#include <stdio.h>

/* Bits of a slot burst before its block: training and link word. */
enum { HEAD = DECKLEWREN_TRAINING_BITS + DECKLEWREN_WORD_BITS };

int run_write_slot(const request *asked) {
    static input datagram;
    uint8_t burst[DECKLEWREN_BURST_MOST];
    int taken = take_datagram(&datagram, asked->given & HEX);
    if (taken != ENDED_WELL) {
        return taken;
    }
    decklewren_written written =
        decklewren_write_slot(narrowed(asked->number), datagram.bytes, datagram.count, burst, sizeof burst);
    if (written.status != DECKLEWREN_DONE) {
        return refuse_writing(written.status, asked, datagram.count);
    }
    put_bits(burst, written.count);
    return end_well("count=%u\n", (unsigned)written.count);
}

/* The link that the link word of a burst names; a refusal does not repeat it. */
static uint32_t named(const input *bits) {
    return decklewren_read_word(bits->bytes + DECKLEWREN_TRAINING_BITS, DECKLEWREN_WORD_BITS).number;
}

static int refuse_slot_length(const input *bits) {
    char burst[40];
    if (bits->count < HEAD) {
        return refuse_length(bits, "the head of a slot burst", HEAD);
    }
    snprintf(burst, sizeof burst, "a slot burst of link %u", (unsigned)named(bits));
    return refuse_length(bits, burst, decklewren_burst(named(bits)));
}

/* The training is taken from a burst that the library writes. */
static int refuse_training(const input *bits) {
    uint8_t burst[DECKLEWREN_BURST_5];
    size_t differ = 0, first = 0;
    decklewren_write_slot(5, NULL, 0, burst, sizeof burst);
    for (size_t place = DECKLEWREN_TRAINING_BITS; place-- > 0;) {
        if (bits->bytes[place] != burst[place]) {
            differ++;
            first = place;
        }
    }
    return refuse(DECKLEWREN_NO_TRAINING, "%zu of %u bits differ, the first at place %zu", differ, DECKLEWREN_TRAINING_BITS, first);
}

static int refuse_slot(uint32_t status, const input *bits) {
    switch (status) {
    case DECKLEWREN_NOT_OFFERED: return refuse(status, "the link word names link %u", (unsigned)named(bits));
    case DECKLEWREN_WRONG_LENGTH: return refuse_slot_length(bits);
    case DECKLEWREN_NO_BIT: return refuse_no_bit(bits);
    case DECKLEWREN_NO_TRAINING: return refuse_training(bits);
    default: return refuse(status, NULL);
    }
}

/* Hands the bits over by parts of this length, the last one shorter where it must be, and asks. */
static decklewren_slot read_by_parts(const input *bits, uint64_t part, uint8_t *out, size_t out_len) {
    decklewren_parts parts = {0};
    for (size_t at = 0, taken; at < bits->count; at += taken) {
        taken = part < bits->count - at ? (size_t)part : bits->count - at;
        decklewren_parts_take(&parts, bits->bytes + at, taken);
    }
    return decklewren_parts_read(&parts, out, out_len);
}

int run_read_slot(const request *asked) {
    static input bits;
    uint8_t datagram[DECKLEWREN_HELD_7];
    int taken = take_bits(&bits);
    if (taken != ENDED_WELL) {
        return taken;
    }
    decklewren_slot slot = asked->part == 0 ? decklewren_read_slot(bits.bytes, bits.count, datagram, sizeof datagram)
                                            : read_by_parts(&bits, asked->part, datagram, sizeof datagram);
    if (slot.status != DECKLEWREN_DONE) {
        return refuse_slot(slot.status, &bits);
    }
    put_datagram(datagram, slot.count, asked->given & HEX);
    return end_well("count=%u wrong=%u link=%u word_wrong=%u training_wrong=%u\n", (unsigned)slot.count, (unsigned)slot.wrong,
                    (unsigned)slot.link, (unsigned)slot.word_wrong, (unsigned)slot.training_wrong);
}
