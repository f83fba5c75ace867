/* Measures the stack of each call: runs it on a stack of its own that is painted first, and looks how far down the paint was changed.
   Each request is made on two paints, so that a byte that happens to be written with one of them still shows. Prints a line for each
   call with its largest figure over all links and outcomes, and ends with status 1 where one is above what the header says. */
#define _XOPEN_SOURCE 700
#include "decklewren.h"
#include <stdio.h>
#include <string.h>
#include <ucontext.h>

/* One request: which call, its link, position, start or state's count, how many bytes or bits it is given, and the room for its
   answer. */
typedef struct {
    unsigned call;
    uint32_t link;
    size_t given, room;
} request;

enum { WRITE_WORD, READ_WORD, WRITE_BLOCK, READ_BLOCK, WRITE_SLOT, READ_SLOT, TAKE_PART, READ_PARTS, STEP_MESSAGE, WRITE_MESSAGE,
       ZERO_FILL, CALLS };
enum { PAINTED = 262144, LONGEST = DECKLEWREN_MESSAGE_HEAD + DECKLEWREN_BODY_MOST };

static uint8_t stack[PAINTED];
static uint8_t datagram[DECKLEWREN_HELD_MOST + 1], bits[DECKLEWREN_IMAGE_MOST], out[DECKLEWREN_IMAGE_MOST];
static uint8_t type, body[DECKLEWREN_BODY_MOST + 1], buffer[LONGEST + 1];
static decklewren_parts parts;
static request asked;
static const uint8_t *at_the_call;
static ucontext_t here, there;

/* Makes the call from the painted stack, and notes where the stack pointer stands at it: what is changed below that is the call's. */
static void make_call(void) {
    volatile uint32_t status = 0;
    const uint8_t *pointer;
    __asm__ volatile("mov %%rsp, %0" : "=r"(pointer));
    at_the_call = pointer;
    switch (asked.call) {
    case WRITE_WORD: status = decklewren_write_word(asked.link, out, asked.room).status; break;
    case READ_WORD: status = decklewren_read_word(bits, asked.given).status; break;
    case WRITE_BLOCK: status = decklewren_write_block(asked.link, datagram, asked.given, out, asked.room).status; break;
    case READ_BLOCK: status = decklewren_read_block(asked.link, bits, asked.given, out, asked.room).status; break;
    case WRITE_SLOT: status = decklewren_write_slot(asked.link, datagram, asked.given, out, asked.room).status; break;
    case READ_SLOT: status = decklewren_read_slot(bits, asked.given, out, asked.room).status; break;
    case TAKE_PART: decklewren_take_part(&parts.count, parts.bits, bits, asked.given); break;
    case READ_PARTS: status = decklewren_read_parts(&parts.count, parts.bits, out, asked.room).status; break;
    case STEP_MESSAGE: status = decklewren_step_message(datagram, asked.given, asked.link).status; break;
    case WRITE_MESSAGE: status = decklewren_write_message(buffer, asked.room, asked.link, type, 1, body, asked.given).status; break;
    default: status = decklewren_zero_fill(buffer, asked.room, asked.link).status; break;
    }
    (void)status;
}

/* Bytes of the stack below the call that it changed. */
static size_t depth_on(uint8_t paint) {
    memset(stack, paint, sizeof stack);
    getcontext(&there);
    there.uc_stack.ss_sp = stack;
    there.uc_stack.ss_size = sizeof stack;
    there.uc_link = &here;
    makecontext(&there, make_call, 0);
    swapcontext(&here, &there);
    size_t lowest = 0;
    while (lowest < sizeof stack && stack[lowest] == paint) lowest++;
    return (size_t)(at_the_call - stack) - lowest;
}

static const char *const names[CALLS] = {"write_word", "read_word",  "write_block",  "read_block",    "write_slot", "read_slot",
                                         "take_part",  "read_parts", "step_message", "write_message", "zero_fill"};
static const size_t told[CALLS] = {DECKLEWREN_STACK_WRITE_WORD,    DECKLEWREN_STACK_READ_WORD,  DECKLEWREN_STACK_WRITE_BLOCK,
                                   DECKLEWREN_STACK_READ_BLOCK,    DECKLEWREN_STACK_WRITE_SLOT, DECKLEWREN_STACK_READ_SLOT,
                                   DECKLEWREN_STACK_TAKE_PART,     DECKLEWREN_STACK_READ_PARTS, DECKLEWREN_STACK_STEP_MESSAGE,
                                   DECKLEWREN_STACK_WRITE_MESSAGE, DECKLEWREN_STACK_ZERO_FILL};
static size_t most[CALLS];

/* The state holds the bits and the request's count each time: a call changes it. */
static void measure(unsigned call, uint32_t link, size_t given, size_t room) {
    asked = (request){call, link, given, room};
    const uint8_t paints[] = {0x55, 0xAA};
    for (size_t n = 0; n < sizeof paints; n++) {
        parts.count = link;
        memcpy(parts.bits, bits, sizeof parts.bits);
        size_t depth = depth_on(paints[n]);
        if (depth > most[call]) most[call] = depth;
    }
}

/* Reads what lies in out: as it is, with its first bit wrong, with its last wrong too, and with that alone. */
static void measure_reading(unsigned call, uint32_t link, size_t first, size_t length) {
    memcpy(bits, out, length);
    const size_t inverted[] = {first, length - 1, first};
    measure(call, link, length, sizeof out);
    for (size_t n = 0; n < sizeof inverted / sizeof *inverted; n++) {
        bits[inverted[n]] ^= 1;
        measure(call, link, length, sizeof out);
    }
}

static void measure_words(void) {
    for (uint32_t number = 0; number <= 64; number++) {
        measure(WRITE_WORD, number, 0, DECKLEWREN_WORD_BITS);
        measure_reading(READ_WORD, 0, 0, DECKLEWREN_WORD_BITS);
    }
}

static void measure_block(uint32_t link, size_t held, size_t image) {
    measure(WRITE_BLOCK, link, held + 1, sizeof out);
    measure(WRITE_BLOCK, link, held, image - 1);
    measure(WRITE_BLOCK, link, held, sizeof out);
    measure_reading(READ_BLOCK, link, 0, image);
}

static void measure_slot(uint32_t link, size_t held, size_t burst) {
    measure(WRITE_SLOT, link, held, sizeof out);
    measure_reading(READ_SLOT, link, burst - decklewren_image(link), burst);
}

/* Counts of a state: fresh, in the head of a burst, at each burst's length and beside it, too long, forged. */
static const uint32_t counts[] = {0, 1, 85, 86, 479, 480, 481, 991, 992, 993, 1503, 1504, 1505, 1506, UINT32_MAX};
enum { COUNTS = sizeof counts / sizeof *counts };

static void measure_taking(void) {
    static const size_t lengths[] = {0, 1, 8, 64, 86, 1503, 1504, 1505, 1506, sizeof bits};
    for (size_t n = 0; n < COUNTS; n++) {
        for (size_t of = 0; of < sizeof lengths / sizeof *lengths; of++) measure(TAKE_PART, counts[n], lengths[of], 0);
    }
}

/* Asks with this damage on so many places, for every count, with room and with none; then the bits are as they were. */
static void measure_asking(size_t place, size_t length, uint8_t damage) {
    for (size_t n = 0; n < length; n++) bits[place + n] ^= damage;
    for (size_t n = 0; n < COUNTS; n++) {
        measure(READ_PARTS, counts[n], 0, sizeof out);
        measure(READ_PARTS, counts[n], 0, 0);
    }
    for (size_t n = 0; n < length; n++) bits[place + n] ^= damage;
}

/* Every outcome of asking: a good burst, mended ones, and each refusal. */
static void measure_parts(uint32_t link, size_t burst) {
    enum { WORD = DECKLEWREN_TRAINING_BITS, HEAD = WORD + DECKLEWREN_WORD_BITS };
    decklewren_write_slot(link, datagram, 0, bits, sizeof bits);
    measure_asking(0, 0, 0);
    measure_asking(HEAD, 1, 1);
    measure_asking(HEAD, 2, 1);
    measure_asking(WORD, 7, 1);
    measure_asking(WORD, 8, 1);
    measure_asking(0, 8, 1);
    measure_asking(0, 9, 1);
    measure_asking(0, 1, 2);
    measure_asking(burst - 1, 1, 2);
    decklewren_write_word(8, bits + WORD, DECKLEWREN_WORD_BITS);
    measure_asking(0, 0, 0);
}

/* Steps over fill, to each thing that may stand behind it: the end, a message, the zero fill, one that is spoilt, a message past the
   end, too few bytes for one, and one of too small a length. The step goes through fill in turns: runs of every length up to
   LONGEST_RUN end in each of them. */
static void measure_steps(void) {
    enum { LONGEST_RUN = 256 };
    static const struct {
        size_t length;
        uint8_t bytes[7];
    } endings[] = {{0, {0}}, {7, {74, 0, 7, 0, 0, 0, 1}}, {1, {0}}, {2, {0, 81}}, {7, {74, 3, 132, 0, 0, 0, 1}}, {2, {74, 0}},
                   {3, {74, 0, 6}}};
    for (size_t run = 0; run <= LONGEST_RUN; run++) {
        memset(datagram, 81, run);
        for (size_t n = 0; n < sizeof endings / sizeof *endings; n++) {
            memcpy(datagram + run, endings[n].bytes, endings[n].length);
            measure(STEP_MESSAGE, 0, run + endings[n].length, 0);
        }
    }
}

/* Messages of short, long and too long bodies with enough room and with too little, at a datagram's start, inside it, at its end and
   past it, of a type that is none too; and zeros from the same starts on. */
static void measure_laying(void) {
    enum { MOST = DECKLEWREN_BODY_MOST };
    static const size_t lengths[] = {0, 1, 2, 8, 15, 16, 17, 63, 64, 65, 300, 4096, MOST - 1, MOST, MOST + 1};
    static const size_t rooms[] = {0, 6, 7, 8, 80, 307, LONGEST, LONGEST + 1};
    for (size_t n = 0; n < sizeof rooms / sizeof *rooms; n++) {
        const size_t starts[] = {0, 1, rooms[n] / 2, rooms[n], rooms[n] + 1};
        for (size_t at = 0; at < sizeof starts / sizeof *starts; at++) {
            type = 81;
            measure(WRITE_MESSAGE, (uint32_t)starts[at], 0, rooms[n]);
            type = 74;
            for (size_t of = 0; of < sizeof lengths / sizeof *lengths; of++) {
                measure(WRITE_MESSAGE, (uint32_t)starts[at], lengths[of], rooms[n]);
            }
            measure(ZERO_FILL, (uint32_t)starts[at], 0, rooms[n]);
        }
    }
}

int main(void) {
    int above = 0;
    measure_words();
#define BLOCK(link, held, image) measure_block(link, held, image);
    DECKLEWREN_LINKS(BLOCK)
#define SLOT(link, burst) measure_slot(link, DECKLEWREN_HELD_##link, burst);
    DECKLEWREN_SLOT_LINKS(SLOT)
    measure_taking();
#define PARTS(link, burst) measure_parts(link, burst);
    DECKLEWREN_SLOT_LINKS(PARTS)
    for (uint32_t position = 0; position < 10; position++) measure(STEP_MESSAGE, position, 8, 0);
    measure_steps();
    measure_laying();
    for (unsigned call = 0; call < CALLS; call++) {
        printf("%-13s %6zu bytes, the header says %zu\n", names[call], most[call], told[call]);
        above |= most[call] == 0 || most[call] > told[call];
    }
    return above;
}
