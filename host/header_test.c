/* Holds every name, size and function of the header to the archive. Compiled as C and as C++; the header comes first, so that it
   stands alone. The last line counts, 'N passed, M failed'. */
#include "decklewren.h"
#include <assert.h>
#include <stdio.h>
#include <string.h>

static unsigned passed, failed;

static void expect(const char *what, unsigned number, uint64_t expected, uint64_t got) {
    if (expected == got) {
        passed++;
        return;
    }
    failed++;
    printf("%s %u: expected %llu, got %llu\n", what, number, (unsigned long long)expected, (unsigned long long)got);
}

/* The header's sizes of a link; a link that it does not list has none, and one without slot bursts has burst 0. */
typedef struct {
    uint32_t link, held, image, burst;
} sizes;

#define SIZES(link, held, image) {link, held, image, 0},
#define BURST(link, burst) {link, DECKLEWREN_HELD_##link, DECKLEWREN_IMAGE_##link, burst},
static const sizes links[] = {DECKLEWREN_LINKS(SIZES)};
static const sizes slot_links[] = {DECKLEWREN_SLOT_LINKS(BURST)};
enum { LINKS = sizeof links / sizeof *links, SLOT_LINKS = sizeof slot_links / sizeof *slot_links };

/* Where each field of what reading a slot burst, a step and laying answer stands and how wide it is; check_slot_answers, check_steps
   and check_messages hold the archive to it. Held while compiling: behind a shorter struct the archive would write over what is not
   its own. */
#define FIELD(type, name, place, size) \
    static_assert(offsetof(type, name) == place && sizeof(((type *)0)->name) == size, #type " " #name);
FIELD(decklewren_slot, status, 0, 4)
FIELD(decklewren_slot, count, 4, 4)
FIELD(decklewren_slot, wrong, 8, 4)
FIELD(decklewren_slot, link, 12, 4)
FIELD(decklewren_slot, word_wrong, 16, 4)
FIELD(decklewren_slot, training_wrong, 20, 4)
static_assert(sizeof(decklewren_slot) == 24, "bytes of a slot burst's answer");
FIELD(decklewren_step, status, 0, 4)
FIELD(decklewren_step, start, 8, 8)
FIELD(decklewren_step, length, 16, 8)
FIELD(decklewren_step, missing, 24, 8)
static_assert(sizeof(decklewren_step) == 32, "bytes of a step");
FIELD(decklewren_laid, status, 0, 4)
FIELD(decklewren_laid, count, 8, 8)
static_assert(sizeof(decklewren_laid) == 16, "bytes of what laying answers");

static uint8_t datagram[DECKLEWREN_HELD_MOST + 1], bits[DECKLEWREN_IMAGE_MOST + DECKLEWREN_BURST_MOST];

/* Each number that document 01 gives, by a request that it is the answer to. */
static void check_word_numbers(void) {
    uint8_t word[DECKLEWREN_WORD_BITS];
    decklewren_written written = decklewren_write_word(5, word, sizeof word);
    expect("DONE", 0, DECKLEWREN_DONE, written.status);
    expect("WORD_BITS", 0, DECKLEWREN_WORD_BITS, written.count);
    expect("NOT_OFFERED", 0, DECKLEWREN_NOT_OFFERED, decklewren_write_word(64, word, sizeof word).status);
    expect("WRONG_LENGTH", 0, DECKLEWREN_WRONG_LENGTH, decklewren_read_word(word, sizeof word - 1).status);
    expect("NO_ROOM", 0, DECKLEWREN_NO_ROOM, decklewren_write_word(5, word, sizeof word - 1).status);
    for (size_t place = 0; place < 8; place++) word[place] ^= 1;
    expect("NO_WORD", 0, DECKLEWREN_NO_WORD, decklewren_read_word(word, sizeof word).status);
    word[31] = 2;
    expect("NO_BIT", 0, DECKLEWREN_NO_BIT, decklewren_read_word(word, sizeof word).status);
}

static void check_other_numbers(void) {
    memset(bits, 0, sizeof bits);
    expect("NO_TRAINING", 0, DECKLEWREN_NO_TRAINING, decklewren_read_slot(bits, 480, datagram, 32).status);
    expect("NO_BLOCK", 0, DECKLEWREN_NO_BLOCK, decklewren_read_block(5, bits, 394, datagram, 32).status);
}

/* Each number of a step, with what comes with it: the place of a message with 9, 11, 12, the missing bytes with 12 alone. */
static void check_steps(void) {
    static const struct {
        uint32_t status;
        size_t position;
        uint64_t start, length, missing;
        size_t count;
        uint8_t bytes[8];
    } steps[] = {
        {DECKLEWREN_DONE, 0, 1, 7, 0, 8, {81, 74, 0, 7, 0, 0, 0, 1}},
        {DECKLEWREN_DONE, 1, 0, 0, 0, 3, {74, 81, 0}},
        {DECKLEWREN_PAST_END, 3, 0, 0, 0, 2, {81, 1}},
        {DECKLEWREN_SMALL_LENGTH, 1, 2, 0, 0, 5, {74, 81, 1, 0, 6}},
        {DECKLEWREN_BROKEN_FILL, 1, 0, 0, 0, 4, {74, 81, 0, 1}},
        {DECKLEWREN_FEW_LEFT, 0, 1, 0, 0, 3, {81, 1, 0}},
        {DECKLEWREN_MESSAGE_PAST_END, 0, 0, 0, 1, 8, {74, 0, 9, 0, 0, 0, 1, 81}},
        {DECKLEWREN_MESSAGE_PAST_END, 0, 2, 0, 65532, 5, {81, 81, 1, 255, 255}},
    };
    for (unsigned n = 0; n < sizeof steps / sizeof *steps; n++) {
        decklewren_step step = decklewren_step_message(steps[n].bytes, steps[n].count, steps[n].position);
        expect("status of step", n, steps[n].status, step.status);
        expect("start of step", n, steps[n].start, step.start);
        expect("length of step", n, steps[n].length, step.length);
        expect("missing of step", n, steps[n].missing, step.missing);
    }
}

/* Ten bytes 9, before something is laid into them. */
static const uint8_t nines[10] = {9, 9, 9, 9, 9, 9, 9, 9, 9, 9};

/* Each number of laying a message with the body 5 6, and what then stands where the nines stood. */
static void check_messages(void) {
    static const uint8_t body[2] = {5, 6};
    static const struct {
        uint32_t status;
        size_t start;
        uint8_t type;
        uint64_t count;
        uint8_t bytes[10];
    } messages[] = {
        {DECKLEWREN_DONE, 0, 74, 9, {74, 0, 9, 1, 2, 3, 4, 5, 6, 9}},
        {DECKLEWREN_DONE, 1, 255, 9, {9, 255, 0, 9, 1, 2, 3, 4, 5, 6}},
        {DECKLEWREN_PAST_END, 11, 0, 0, {9, 9, 9, 9, 9, 9, 9, 9, 9, 9}},
        {DECKLEWREN_NO_TYPE, 0, 0, 0, {9, 9, 9, 9, 9, 9, 9, 9, 9, 9}},
        {DECKLEWREN_NO_TYPE, 10, 81, 0, {9, 9, 9, 9, 9, 9, 9, 9, 9, 9}},
        {DECKLEWREN_NO_ROOM, 2, 74, 0, {9, 9, 9, 9, 9, 9, 9, 9, 9, 9}},
        {DECKLEWREN_NO_ROOM, 10, 74, 0, {9, 9, 9, 9, 9, 9, 9, 9, 9, 9}},
    };
    for (unsigned n = 0; n < sizeof messages / sizeof *messages; n++) {
        memcpy(datagram, nines, sizeof nines);
        decklewren_laid laid = decklewren_write_message(datagram, sizeof nines, messages[n].start, messages[n].type, 0x01020304, body,
                                                        sizeof body);
        expect("status of message", n, messages[n].status, laid.status);
        expect("count of message", n, messages[n].count, laid.count);
        expect("bytes of message", n, 0, (uint64_t)memcmp(datagram, messages[n].bytes, sizeof nines));
    }
}

/* Zeros from each start on, and past the end. */
static void check_zeros(void) {
    for (unsigned start = 0; start <= sizeof nines + 1; start++) {
        uint8_t expected[sizeof nines];
        size_t kept = start <= sizeof nines ? start : sizeof nines;
        memset(expected, 0, sizeof expected);
        memcpy(expected, nines, kept);
        memcpy(datagram, nines, sizeof nines);
        decklewren_laid laid = decklewren_zero_fill(datagram, sizeof nines, start);
        expect("status of zeros from", start, start == kept ? DECKLEWREN_DONE : DECKLEWREN_PAST_END, laid.status);
        expect("count of zeros from", start, sizeof nines - kept, laid.count);
        expect("bytes of zeros from", start, 0, (uint64_t)memcmp(datagram, expected, sizeof nines));
    }
}

/* The longest body just fits behind its head, and no longer one is taken, though there is room. */
static void check_longest(void) {
    enum { MOST = DECKLEWREN_BODY_MOST, LONGEST = DECKLEWREN_MESSAGE_HEAD + MOST };
    static uint8_t body[MOST + 1], buffer[LONGEST + 1];
    expect("BODY_MOST", 0, LONGEST, decklewren_write_message(buffer, LONGEST, 0, 74, 1, body, MOST).count);
    expect("BODY_MOST, length", 0, LONGEST, decklewren_step_message(buffer, LONGEST, 0).length);
    expect("BODY_MOST, room", 0, DECKLEWREN_NO_ROOM, decklewren_write_message(buffer, LONGEST - 1, 0, 74, 1, body, MOST).status);
    expect("LONG_BODY", 0, DECKLEWREN_LONG_BODY, decklewren_write_message(buffer, LONGEST + 1, 0, 74, 1, body, MOST + 1).status);
    expect("MESSAGE_HEAD", 0, DECKLEWREN_MESSAGE_HEAD, decklewren_write_message(buffer, LONGEST, 0, 74, 1, body, 0).count);
}

/* A link holds just so many bytes, and its image and its datagram need just so much room. */
static void check_link(sizes of) {
    uint32_t link = of.link;
    expect("one byte more, link", link, 2, decklewren_write_block(link, datagram, of.held + 1, bits, sizeof bits).status);
    expect("room for less than N, link", link, 3, decklewren_write_block(link, datagram, of.held, bits, of.image - 1).status);
    expect("N of link", link, of.image, decklewren_write_block(link, datagram, of.held, bits, of.image).count);
    expect("room for less than it holds, link", link, 3, decklewren_read_block(link, bits, of.image, datagram, of.held - 1).status);
    expect("bytes held by link", link, of.held, decklewren_read_block(link, bits, of.image, datagram, of.held).count);
}

static void check_slot_link(sizes of) {
    uint32_t link = of.link;
    expect("one byte more, slot link", link, 2, decklewren_write_slot(link, datagram, of.held + 1, bits, sizeof bits).status);
    expect("room for less than a burst, link", link, 3, decklewren_write_slot(link, datagram, of.held, bits, of.burst - 1).status);
    expect("burst of link", link, of.burst, decklewren_write_slot(link, datagram, of.held, bits, of.burst).count);
    expect("bytes held by slot link", link, of.held, decklewren_read_slot(bits, of.burst, datagram, of.held).count);
}

static int listed(const sizes *list, size_t count, uint32_t link) {
    for (size_t n = 0; n < count; n++) {
        if (list[n].link == link) return 1;
    }
    return 0;
}

/* The functions that answer a link's sizes answer what the archive does, 0 for a link that is not offered. */
static void check_sizes(void) {
    for (uint32_t link = 0; link < 1000; link++) {
        size_t image = decklewren_write_block(link, datagram, 0, bits, sizeof bits).count;
        expect("decklewren_image", link, image, decklewren_image(link));
        size_t held = decklewren_read_block(link, bits, image, datagram, sizeof datagram).count;
        expect("decklewren_held", link, held, decklewren_held(link));
        expect("decklewren_burst", link, decklewren_write_slot(link, datagram, 0, bits, sizeof bits).count, decklewren_burst(link));
    }
    uint32_t none = UINT32_MAX;
    expect("sizes of no link", none, 0, decklewren_held(none) + decklewren_image(none) + decklewren_burst(none));
}

/* The link word stands behind the training, and the block behind both. */
static void check_training(void) {
    uint8_t word[DECKLEWREN_WORD_BITS];
    for (size_t n = 0; n < SLOT_LINKS; n++) {
        uint32_t link = slot_links[n].link;
        decklewren_write_word(link, word, sizeof word);
        decklewren_write_slot(link, datagram, 0, bits, sizeof bits);
        expect("TRAINING_BITS, link", link, 0, (uint64_t)memcmp(bits + DECKLEWREN_TRAINING_BITS, word, sizeof word));
        size_t parts = DECKLEWREN_TRAINING_BITS + DECKLEWREN_WORD_BITS + slot_links[n].image;
        expect("parts of a burst, link", link, slot_links[n].burst, parts);
    }
}

/* Its fields, of a burst that was read so, whole or by parts, with so many wrong bits of the training. */
static void expect_slot(const char *read, unsigned wrong, decklewren_slot expected, decklewren_slot got) {
    const struct {
        const char *name;
        uint32_t expected, got;
    } fields[] = {
        {"status", expected.status, got.status},
        {"count", expected.count, got.count},
        {"wrong", expected.wrong, got.wrong},
        {"link", expected.link, got.link},
        {"word_wrong", expected.word_wrong, got.word_wrong},
        {"training_wrong", expected.training_wrong, got.training_wrong},
    };
    for (size_t n = 0; n < sizeof fields / sizeof fields[0]; n++) {
        char what[80];
        snprintf(what, sizeof what, "%s, read %s, wrong bits of the training:", fields[n].name, read);
        expect(what, wrong, fields[n].expected, fields[n].got);
    }
}

/* A burst of link 6 with one wrong bit in its block, seven in its link word and none to nine in its training, read whole and by parts:
   each number in its own field, and with nine refusal 5 and 0 in all others. */
static void check_slot_answers(void) {
    static decklewren_parts parts;
    const decklewren_slot refused = {DECKLEWREN_NO_TRAINING, 0, 0, 0, 0, 0};
    decklewren_write_slot(6, datagram, 0, bits, sizeof bits);
    bits[DECKLEWREN_BURST_6 - 1] ^= 1;
    for (size_t place = 0; place < 7; place++) bits[DECKLEWREN_TRAINING_BITS + place] ^= 1;
    for (uint32_t wrong = 0; wrong <= 9; wrong++) {
        const decklewren_slot answered = {DECKLEWREN_DONE, DECKLEWREN_HELD_6, 1, 6, 7, wrong};
        const decklewren_slot expected = wrong <= 8 ? answered : refused;
        decklewren_parts_take(&parts, bits, DECKLEWREN_BURST_6);
        expect_slot("whole", wrong, expected, decklewren_read_slot(bits, DECKLEWREN_BURST_6, datagram, DECKLEWREN_HELD_6));
        expect_slot("by parts", wrong, expected, decklewren_parts_read(&parts, datagram, DECKLEWREN_HELD_6));
        bits[wrong] ^= 1;
    }
}

/* A state has the sizes that the archive is lent, and begins fresh. A burst that comes in two parts, with an empty one between them,
   is read and leaves it fresh. */
static void check_parts(void) {
    static decklewren_parts parts, fresh;
    expect("bytes of a state", 0, 1508, sizeof parts);
    expect("place of its bits", 0, 4, offsetof(decklewren_parts, bits));
    for (size_t n = 0; n < SLOT_LINKS; n++) {
        sizes of = slot_links[n];
        decklewren_write_slot(of.link, datagram, 0, bits, of.burst);
        decklewren_parts_take(&parts, bits, 100);
        decklewren_parts_take(&parts, bits + 100, 0);
        decklewren_parts_take(&parts, bits + 100, of.burst - 100);
        expect("bits that came, link", of.link, of.burst, parts.count);
        expect("bits kept, link", of.link, 0, (uint64_t)memcmp(parts.bits, bits, of.burst));
        expect("bytes held by parts, link", of.link, of.held, decklewren_parts_read(&parts, datagram, of.held).count);
        expect("fresh state, link", of.link, 0, (uint64_t)memcmp(&parts, &fresh, sizeof parts));
    }
}

/* Every status has words of its own, and a number that is none has those of no status. */
static void check_words(void) {
    for (uint32_t status = 0; status <= 15; status++) {
        for (uint32_t other = 0; other < status; other++) {
            int same = strcmp(decklewren_status_text(status), decklewren_status_text(other)) == 0;
            expect("words shared with another status by", status, 0, (uint64_t)same);
        }
    }
#define WORDS(name, number, text) expect("words of", number, 0, (uint64_t)strcmp(decklewren_status_text(name), text));
    DECKLEWREN_STATUSES(WORDS)
    expect("words of no status", 0, 0, (uint64_t)strcmp(decklewren_status_text(15), decklewren_status_text(UINT32_MAX)));
}

static void check_version(void) {
    char text[32];
    snprintf(text, sizeof text, "%d.%d.%d", DECKLEWREN_VERSION_MAJOR, DECKLEWREN_VERSION_MINOR, DECKLEWREN_VERSION_PATCH);
    expect("VERSION", 0, 0, (uint64_t)strcmp(text, DECKLEWREN_VERSION));
}

/* The lists name every link that is offered, and no other. */
static void check_lists(void) {
    unsigned missed = 0;
    for (uint32_t link = 0; link < 1000; link++) {
        int offered = decklewren_write_block(link, datagram, 0, bits, sizeof bits).status != DECKLEWREN_NOT_OFFERED;
        int has_slots = decklewren_write_slot(link, datagram, 0, bits, sizeof bits).status != DECKLEWREN_NOT_OFFERED;
        if (offered != listed(links, LINKS, link) || has_slots != listed(slot_links, SLOT_LINKS, link)) {
            printf("link %u is listed and not offered, or offered and not listed\n", (unsigned)link);
            missed++;
        }
    }
    expect("links that the lists get wrong", 0, 0, missed);
}

static void check_most(void) {
    sizes most = {0, 0, 0, 0};
    for (size_t n = 0; n < LINKS; n++) {
        if (links[n].held > most.held) most.held = links[n].held;
        if (links[n].image > most.image) most.image = links[n].image;
    }
    for (size_t n = 0; n < SLOT_LINKS; n++) {
        if (slot_links[n].burst > most.burst) most.burst = slot_links[n].burst;
    }
    expect("HELD_MOST", 0, most.held, DECKLEWREN_HELD_MOST);
    expect("IMAGE_MOST", 0, most.image, DECKLEWREN_IMAGE_MOST);
    expect("BURST_MOST", 0, most.burst, DECKLEWREN_BURST_MOST);
}

int main(void) {
    check_word_numbers();
    check_other_numbers();
    check_steps();
    check_messages();
    check_zeros();
    check_longest();
    for (size_t n = 0; n < LINKS; n++) check_link(links[n]);
    for (size_t n = 0; n < SLOT_LINKS; n++) check_slot_link(slot_links[n]);
    check_lists();
    check_most();
    check_sizes();
    check_training();
    check_slot_answers();
    check_parts();
    check_words();
    check_version();
    printf("%u passed, %u failed\n", passed, failed);
    return failed != 0;
}
