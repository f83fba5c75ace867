/* One ice notice through its day: three messages laid into 80 bytes ashore, their burst of two slots, one bit decided wrongly at sea,
   the datagram there and its messages. Then last spring's lie: a burst of one slot whose message declares 900 bytes. It is made by
   hand, for the library does not write it. */
#include "decklewren.h"
#include <stdio.h>
#include <string.h>

/* Bytes of a short data message between its source and its text (M.2092-1, Annex 4, Table 39), session and destination, and all those
   before its text. */
enum { ADDRESS = 5, TEXT = DECKLEWREN_MESSAGE_HEAD + ADDRESS };

/* Bits of the longest slot burst, and the bytes that its link holds. */
enum { BURST = DECKLEWREN_BURST_MOST, HELD = DECKLEWREN_HELD_7 };

/* Shows what was laid from a start on, and answers where it ends. */
static size_t show_laid(const char *what, size_t start, decklewren_laid laid) {
    printf("%s laid at %u: status %u, count %u\n", what, (unsigned)start, (unsigned)laid.status, (unsigned)laid.count);
    return start + (size_t)laid.count;
}

/* Lays a short data message from source 1 to all stations, with a text of at most HELD bytes, and answers where it ends. */
static size_t lay_message(uint8_t *datagram, size_t datagram_len, size_t start, const char *text) {
    uint8_t body[ADDRESS + HELD] = {0};
    size_t length = strlen(text);
    memcpy(body + ADDRESS, text, length);
    return show_laid("a message", start, decklewren_write_message(datagram, datagram_len, start, 93, 1, body, ADDRESS + length));
}

/* Prints bytes as hexadecimal digits, twenty bytes to a line. */
static void show_bytes(const uint8_t *bytes, size_t count) {
    for (size_t i = 0; i < count; i++) {
        printf("%s%02x%s", i % 20 == 0 ? "  " : "", bytes[i], i % 20 == 19 || i + 1 == count ? "\n" : "");
    }
}

/* Prints bits, four to a hexadecimal digit and 62 digits to a line. */
static void show_bits(const uint8_t *bits, size_t count) {
    for (size_t i = 0; i + 4 <= count; i += 4) {
        unsigned digit = 8u * bits[i] + 4u * bits[i + 1] + 2u * bits[i + 2] + bits[i + 3];
        printf("%s%x%s", i % 248 == 0 ? "  " : "", digit, i % 248 == 244 || i + 4 == count ? "\n" : "");
    }
}

/* Shows how a walk that came to this position ends. A message that lies has its own place, which is never before the position. */
static void show_end(decklewren_step last, size_t position) {
    unsigned place = (unsigned)(last.start > position ? last.start : position);
    const char *words = last.status == DECKLEWREN_DONE ? "finished" : decklewren_status_text(last.status);
    printf("  at %u: %s, status %u", place, words, (unsigned)last.status);
    if (last.missing > 0) printf(", missing %u", (unsigned)last.missing);
    printf("\n");
}

/* Shows every message of a datagram in turn with its text, as docs/MESSAGES.md walks one, and how the walk ends. */
static void show_messages(const uint8_t *datagram, size_t datagram_len) {
    size_t position = 0;
    decklewren_step step = decklewren_step_message(datagram, datagram_len, position);
    while (step.length != 0) {
        const uint8_t *message = datagram + step.start;
        int text = step.length > TEXT ? (int)step.length - TEXT : 0;
        printf("  at %u: type %u, %u bytes, ", (unsigned)step.start, message[0], (unsigned)step.length);
        printf("\"%.*s\"\n", text, (const char *)message + step.length - text);
        position = (size_t)(step.start + step.length);
        step = decklewren_step_message(datagram, datagram_len, position);
    }
    show_end(step, position);
}

/* Writes the burst of a datagram, shows what was answered and answers how many bits it has. */
static size_t write_burst(uint32_t link, const uint8_t *datagram, size_t datagram_len, uint8_t *burst) {
    decklewren_written written = decklewren_write_slot(link, datagram, datagram_len, burst, BURST);
    printf("written for link %u: status %u, %u bits\n", (unsigned)link, (unsigned)written.status, (unsigned)written.count);
    return written.count;
}

/* Reads a burst into a datagram, shows what was answered and answers how many bytes it has. */
static size_t read_burst(const uint8_t *burst, size_t burst_len, uint8_t *datagram) {
    decklewren_slot slot = decklewren_read_slot(burst, burst_len, datagram, HELD);
    printf("read at sea: status %u, %u bytes, %u wrong in the block, ", (unsigned)slot.status, (unsigned)slot.count,
           (unsigned)slot.wrong);
    printf("link %u, %u wrong in its word, ", (unsigned)slot.link, (unsigned)slot.word_wrong);
    printf("%u in the training\n", (unsigned)slot.training_wrong);
    return slot.count;
}

/* The burst and the datagram at sea serve both stories: the lie comes in over what the notice left there. */
static uint8_t burst[BURST];
static uint8_t at_sea[HELD];

static void show_notice(void) {
    uint8_t ashore[80];
    memset(ashore, 0xff, sizeof ashore); /* what an earlier notice left is laid over */
    printf("the ice notice, %u bytes ashore:\n", (unsigned)sizeof ashore);
    size_t end = lay_message(ashore, sizeof ashore, 0, "ICE 65.1N 24.1E 40CM");
    end = lay_message(ashore, sizeof ashore, end, "RIDGES TO 23.5E");
    end = lay_message(ashore, sizeof ashore, end, "TUG 0900");
    show_laid("zeros", end, decklewren_zero_fill(ashore, sizeof ashore, end));
    show_bytes(ashore, sizeof ashore);
    size_t bits = write_burst(6, ashore, sizeof ashore, burst);
    show_bits(burst, bits);
    burst[500] ^= 1;
    printf("bit 500 is decided wrongly\n");
    size_t bytes = read_burst(burst, bits, at_sea);
    show_bytes(at_sea, bytes);
    printf("the bytes are those from ashore: %s\n", memcmp(at_sea, ashore, sizeof ashore) == 0 ? "yes" : "no");
    show_messages(at_sea, bytes);
}

static void show_lie(void) {
    const uint8_t lie[7] = {93, 900 / 256, 900 % 256, 0, 0, 0, 1};
    printf("the lie, %u bytes that declare 900:\n", (unsigned)sizeof lie);
    size_t bits = write_burst(5, lie, sizeof lie, burst);
    size_t bytes = read_burst(burst, bits, at_sea);
    show_bytes(at_sea, bytes);
    show_messages(at_sea, bytes);
}

int main(void) {
    show_notice();
    show_lie();
    return 0;
}
