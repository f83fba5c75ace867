/* A radio's driver that takes slot bursts by parts (document 02, K2). The interrupt hands over what the radio's FIFO holds, a few bits, and
   the main loop asks once a burst has ended, while the next one comes already. The radio is simulated. */
#include "decklewren.h"
#include <stdio.h>
#include <string.h>

static decklewren_parts states[2]; /* zero, and so fresh */
static volatile unsigned filling;  /* the state that the interrupt fills; only the main loop changes it */
static volatile int ended;         /* whether the burst in that state has ended */

/* The radio's interrupt: what its FIFO holds, and whether the burst ends with it. */
static void interrupt(const uint8_t *fifo, size_t held, int last) {
    decklewren_parts_take(&states[filling], fifo, held);
    if (last) ended = 1;
}

/* The main loop: what comes from now on goes into the other state, so that none is changed while it is asked. */
static decklewren_parts *take_ended(void) {
    ended = 0;
    filling = 1 - filling;
    return &states[1 - filling];
}

/* What the radio plays: a burst of link 6 as it should be, with one bit of its block wrong, with one of its training, too long, and
   then as it should be. The last one comes into the state that was refused. `wrong` is the place of the wrong bit. */
enum { FIFO = 16, BITS = DECKLEWREN_BURST_6, TOO_LONG = 2000, NOWHERE = TOO_LONG };
static const struct {
    const char *what;
    size_t length, wrong;
} plays[] = {{"good", BITS, NOWHERE},         {"one bit wrong", BITS, 500}, {"one of the training", BITS, 20},
             {"too long", TOO_LONG, NOWHERE}, {"the next", BITS, NOWHERE},  {"the one behind it", BITS, NOWHERE}};
enum { PLAYS = sizeof plays / sizeof *plays };
static uint8_t burst[TOO_LONG];

/* One interrupt of the radio, with another number of bits each time, from none to all that its FIFO can hold. Answers 0 once all is played. */
static int radio(void) {
    static size_t play, at, interrupts;
    if (play == PLAYS) return 0;
    size_t left = plays[play].length - at, held = interrupts++ * 7 % (FIFO + 1), wrong = plays[play].wrong;
    uint8_t fifo[FIFO];
    if (held > left) held = left;
    memcpy(fifo, burst + at, held);
    if (at <= wrong && wrong < at + held) fifo[wrong - at] ^= 1;
    at = held == left ? 0 : at + held;
    play += held == left;
    interrupt(fifo, held, held == left);
    return 1;
}

static void show(const char *what, decklewren_slot slot, const uint8_t *datagram) {
    printf("%s: status %u", what, (unsigned)slot.status);
    if (slot.status == DECKLEWREN_DONE) {
        printf(", link %u, %u wrong, %u in the training", (unsigned)slot.link, (unsigned)slot.wrong, (unsigned)slot.training_wrong);
        printf(", \"%.*s\"", (int)slot.count, (const char *)datagram);
    }
    printf("\n");
}

int main(void) {
    const char text[] = "ICE 65.1N 24.1E 40CM";
    uint8_t datagram[DECKLEWREN_HELD_7];
    size_t asked = 0;
    decklewren_write_slot(6, (const uint8_t *)text, strlen(text), burst, sizeof burst);
    while (radio()) {
        if (!ended) continue;
        decklewren_parts *state = take_ended();
        radio(); /* the next burst begins before this one is read */
        show(plays[asked++].what, decklewren_parts_read(state, datagram, sizeof datagram), datagram);
    }
    return 0;
}
