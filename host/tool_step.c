/* decklewren step [POSITION]: the messages of a datagram (document 01, "Messages in a datagram"; document 02, K1 and K3), each as a
   line of start and length: all of them in turn, or the next from a position on. */
#include "tool.h"
#include <stdio.h>

/* The byte that a step passes over (document 02, K1). */
enum { FILL = 81 };

static void put_message(decklewren_step step) {
    printf("%llu %llu\n", (unsigned long long)step.start, (unsigned long long)step.length);
}

/* Zero fill that is spoilt. The answer does not say where: its 0 is the first byte that is not passed over. */
static int refuse_fill(const uint8_t *bytes, size_t position) {
    while (bytes[position] == FILL) position++;
    size_t place = position;
    while (bytes[place] == 0) place++;
    return refuse_at(DECKLEWREN_BROKEN_FILL, position, "the byte at %zu is %u", place, bytes[place]);
}

/* A message that lies, at the place that was answered. */
static int refuse_message(decklewren_step step, const input *datagram) {
    size_t start = (size_t)step.start;
    if (step.status == DECKLEWREN_FEW_LEFT) {
        return refuse_at(step.status, start, "%zu of 3 bytes left", datagram->count - start);
    }
    unsigned declared = datagram->bytes[start + 1] * 256u + datagram->bytes[start + 2];
    if (step.status == DECKLEWREN_SMALL_LENGTH) {
        return refuse_at(step.status, start, "the message declares %u bytes, at least %u are needed", declared,
                         DECKLEWREN_MESSAGE_HEAD);
    }
    return refuse_at(step.status, start, "the message declares %u bytes, %llu %s missing", declared,
                     (unsigned long long)step.missing, step.missing == 1 ? "is" : "are");
}

/* What a step from this position that was refused found, and where. */
static int refuse_step(decklewren_step step, const input *datagram, size_t position) {
    switch (step.status) {
    case DECKLEWREN_PAST_END: return refuse_at(step.status, position, "the datagram has %zu bytes", datagram->count);
    case DECKLEWREN_BROKEN_FILL: return refuse_fill(datagram->bytes, position);
    default: return refuse_message(step, datagram);
    }
}

static int run_one_step(const input *datagram, uint64_t asked) {
    size_t position = asked < SIZE_MAX ? (size_t)asked : SIZE_MAX;
    decklewren_step step = decklewren_step_message(datagram->bytes, datagram->count, position);
    if (step.status != DECKLEWREN_DONE) {
        return refuse_step(step, datagram, position);
    }
    if (step.length == 0) {
        return end_well("count=0 finished=%zu\n", position);
    }
    put_message(step);
    return end_well("count=1\n");
}

/* Steps from message to message. What ends the walk is answered; `found` and `position` tell how many messages there were and
   where it ended. */
static decklewren_step walk(const input *datagram, int shown, unsigned *found, size_t *position) {
    *found = 0;
    *position = 0;
    for (;;) {
        decklewren_step step = decklewren_step_message(datagram->bytes, datagram->count, *position);
        if (step.length == 0) {
            return step;
        }
        if (shown) {
            put_message(step);
        }
        *position = (size_t)(step.start + step.length);
        ++*found;
    }
}

/* The walk is made twice: a refusal at its end puts nothing on standard output. */
static int run_walk(const input *datagram) {
    unsigned found;
    size_t position;
    decklewren_step last = walk(datagram, 0, &found, &position);
    if (last.status != DECKLEWREN_DONE) {
        return refuse_step(last, datagram, position);
    }
    walk(datagram, 1, &found, &position);
    return end_well("count=%u finished=%zu\n", found, position);
}

int run_step(const request *asked) {
    static input datagram;
    int taken = take_datagram(&datagram, asked->given & HEX);
    if (taken != ENDED_WELL) {
        return taken;
    }
    return asked->typed != NULL ? run_one_step(&datagram, asked->number) : run_walk(&datagram);
}
