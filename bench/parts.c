/* Slot bursts by parts against whole ones, both in one run, on good bursts of each link: asking states that were filled before the
   clock started, and taking the parts. The bursts of a round are all different. */
#include "bench.h"
#include "decklewren.h"
#include <stdio.h>
#include <stdlib.h>
#include <string.h>

enum { BURSTS = 50 };

/* The states with a burst each, those that are measured, and the length of the parts that these take. */
static decklewren_parts filled[BURSTS], states[BURSTS];
static size_t part;

static uint8_t whole_out[DECKLEWREN_HELD_7], out[DECKLEWREN_HELD_7];
static decklewren_slot whole, asked;

static void fill_states(void) { memcpy(states, filled, sizeof states); }
static void empty_states(void) { memset(states, 0, sizeof states); }

static void read_whole(uint32_t link, size_t held, int i) {
    whole = decklewren_read_slot(filled[i].bits, decklewren_burst(link), whole_out, held);
}

static void ask(uint32_t link, size_t held, int i) {
    (void)link;
    asked = decklewren_parts_read(&states[i], out, held);
}

/* A burst by parts, the last one shorter where it must be. */
static void take(uint32_t link, size_t held, int i) {
    (void)held;
    size_t burst = decklewren_burst(link);
    for (size_t at = 0; at < burst; at += part) {
        decklewren_parts_take(&states[i], filled[i].bits + at, part < burst - at ? part : burst - at);
    }
}

/* Random datagrams' bursts, which are read whole and by parts with one answer. */
static void make_bursts(uint32_t link, size_t held) {
    uint8_t datagram[DECKLEWREN_HELD_7];
    for (int i = 0; i < BURSTS; i++) {
        for (size_t at = 0; at < held; at++) datagram[at] = (uint8_t)(rand() >> 8);
        filled[i].count = decklewren_write_slot(link, datagram, held, filled[i].bits, sizeof filled[i].bits).count;
    }
    fill_states();
    for (int i = 0; i < BURSTS; i++) {
        read_whole(link, held, i);
        ask(link, held, i);
        if (whole.count != held || memcmp(&whole, &asked, sizeof whole) != 0 || memcmp(whole_out, out, held) != 0) {
            printf("link %u: whole and by parts differ\n", (unsigned)link);
            exit(1);
        }
    }
}

static void measure_asking(uint32_t link, size_t held) {
    medians of = in_turn(link, held, BURSTS, read_whole, ask, fill_states);
    printf("ask   link %2u:                 ", (unsigned)link);
    printf("whole %8.0f ns, parts  %8.0f ns, ratio %.2f\n", of.first, of.second, of.second / of.first);
}

static void measure_taking(uint32_t link, size_t held, size_t length) {
    part = length;
    medians of = in_turn(link, held, BURSTS, read_whole, take, empty_states);
    printf("take  link %2u, parts of %2u:    ", (unsigned)link, (unsigned)part);
    printf("whole %8.0f ns, parts  %8.0f ns, ratio %.2f, ", of.first, of.second, of.second / of.first);
    printf("%.1f ns a part\n", of.second / (double)((decklewren_burst(link) + part - 1) / part));
}

static void measure_link(uint32_t link, size_t held) {
    make_bursts(link, held);
    measure_asking(link, held);
    measure_taking(link, held, 1);
    measure_taking(link, held, 8);
    measure_taking(link, held, 64);
}

void measure_parts(void) {
#define PARTS(link, burst) measure_link(link, DECKLEWREN_HELD_##link);
    DECKLEWREN_SLOT_LINKS(PARTS)
}
