/* decklewren write LINK, read LINK: blocks (document 01, "From datagram to block"). */
#include "tool.h"
#include <stdio.h>

int run_write(const request *asked) {
    static input datagram;
    static uint8_t image[DECKLEWREN_IMAGE_MOST];
    int taken = take_datagram(&datagram, asked->given & HEX);
    if (taken != ENDED_WELL) {
        return taken;
    }
    decklewren_written written =
        decklewren_write_block(narrowed(asked->number), datagram.bytes, datagram.count, image, sizeof image);
    if (written.status != DECKLEWREN_DONE) {
        return refuse_writing(written.status, asked, datagram.count);
    }
    put_bits(image, written.count);
    return end_well("count=%u\n", (unsigned)written.count);
}

static int refuse_reading(uint32_t status, const request *asked, const input *bits) {
    char image[40];
    switch (status) {
    case DECKLEWREN_NOT_OFFERED: return refuse(status, "link %s was asked for", asked->typed);
    case DECKLEWREN_WRONG_LENGTH:
        snprintf(image, sizeof image, "the image of link %u", (unsigned)asked->number);
        return refuse_length(bits, image, decklewren_image(narrowed(asked->number)));
    case DECKLEWREN_NO_BIT: return refuse_no_bit(bits);
    default: return refuse(status, NULL);
    }
}

int run_read(const request *asked) {
    static input bits;
    uint8_t datagram[DECKLEWREN_HELD_MOST];
    int taken = take_bits(&bits);
    if (taken != ENDED_WELL) {
        return taken;
    }
    decklewren_block block = decklewren_read_block(narrowed(asked->number), bits.bytes, bits.count, datagram, sizeof datagram);
    if (block.status != DECKLEWREN_DONE) {
        return refuse_reading(block.status, asked, &bits);
    }
    put_datagram(datagram, block.count, asked->given & HEX);
    return end_well("count=%u wrong=%u\n", (unsigned)block.count, (unsigned)block.wrong);
}
