/* decklewren write-message, zero-fill SIZE: messages and zeros laid into a datagram (document 02, K6). */
#include "tool.h"

/* The options that a message cannot do without, and the one that needs another. */
static int check_options(const request *asked) {
    if (!(asked->given & TYPE)) return wrong_usage("write-message needs --type");
    if (!(asked->given & SOURCE)) return wrong_usage("write-message needs --source");
    if ((asked->given & AT) && !(asked->given & INTO)) return wrong_usage("--at needs --into");
    return ENDED_WELL;
}

/* The buffer that a message is laid into: a file's bytes or, for a message alone, room for the longest one. */
static int take_buffer(input *datagram, const request *asked) {
    if (asked->given & INTO) {
        return take_file(datagram, asked->into, asked->given & HEX);
    }
    datagram->count = INPUT_MOST;
    return ENDED_WELL;
}

static int refuse_message(uint32_t status, const request *asked, size_t room, size_t came) {
    size_t start = (size_t)asked->at;
    switch (status) {
    case DECKLEWREN_PAST_END: return refuse_at(status, start, "the datagram has %zu bytes", room);
    case DECKLEWREN_NO_TYPE: return refuse(status, "type %u was asked for", (unsigned)asked->type);
    case DECKLEWREN_LONG_BODY: return refuse(status, "%zu bytes came", came);
    default:
        return refuse_at(status, start, "the message has %zu bytes, there is room for %zu", DECKLEWREN_MESSAGE_HEAD + came,
                         room - start);
    }
}

/* The message alone or, in a file's datagram, all of that with the place behind the message, where the next one goes. */
static int put_message(decklewren_laid laid, const request *asked, const input *datagram) {
    unsigned long long count = laid.count;
    if (!(asked->given & INTO)) {
        put_datagram(datagram->bytes, (size_t)laid.count, asked->given & HEX);
        return end_well("count=%llu\n", count);
    }
    put_datagram(datagram->bytes, datagram->count, asked->given & HEX);
    return end_well("count=%llu next=%llu\n", count, asked->at + count);
}

int run_write_message(const request *asked) {
    static input datagram, body;
    int taken = check_options(asked);
    if (taken == ENDED_WELL) taken = take_buffer(&datagram, asked);
    if (taken == ENDED_WELL) taken = take_datagram(&body, asked->given & HEX);
    if (taken != ENDED_WELL) {
        return taken;
    }
    decklewren_laid laid = decklewren_write_message(datagram.bytes, datagram.count, (size_t)asked->at, (uint8_t)asked->type,
                                                    (uint32_t)asked->source, body.bytes, body.count);
    if (laid.status != DECKLEWREN_DONE) {
        return refuse_message(laid.status, asked, datagram.count, body.count);
    }
    return put_message(laid, asked, &datagram);
}

/* The datagram that came stands at the start of one of SIZE bytes, and zeros are laid from its end on. */
int run_zero_fill(const request *asked) {
    static input datagram;
    if (asked->number > INPUT_MOST) {
        return wrong_usage("zero-fill takes a number up to %u", INPUT_MOST);
    }
    int taken = take_datagram(&datagram, asked->given & HEX);
    if (taken != ENDED_WELL) {
        return taken;
    }
    size_t size = (size_t)asked->number;
    decklewren_laid laid = decklewren_zero_fill(datagram.bytes, size, datagram.count);
    if (laid.status != DECKLEWREN_DONE) {
        return refuse(laid.status, "%zu bytes came, the datagram has room for %zu", datagram.count, size);
    }
    put_datagram(datagram.bytes, size, asked->given & HEX);
    return end_well("count=%llu start=%zu\n", (unsigned long long)laid.count, datagram.count);
}
