#include "decklewren.h"
#include <stdio.h>
#include <string.h>

/* A message that is to be laid. */
typedef struct {
    uint8_t type;
    uint32_t source;
    const char *body;
} message;

/* Lays messages one behind the other, up to the first that is refused, and zeros behind them. */
static void compose(uint8_t *datagram, size_t datagram_len, const message *messages, size_t count) {
    size_t end = 0;
    for (size_t n = 0; n < count; n++) {
        const uint8_t *body = (const uint8_t *)messages[n].body;
        decklewren_laid laid = decklewren_write_message(datagram, datagram_len, end, messages[n].type, messages[n].source, body,
                                                        strlen(messages[n].body));
        printf("message at %u: %s, %u bytes\n", (unsigned)end, decklewren_status_text(laid.status), (unsigned)laid.count);
        if (laid.status != DECKLEWREN_DONE) {
            break;
        }
        end += (size_t)laid.count;
    }
    decklewren_laid zeros = decklewren_zero_fill(datagram, datagram_len, end);
    printf("zeros at %u: %s, %u bytes\n", (unsigned)end, decklewren_status_text(zeros.status), (unsigned)zeros.count);
}

/* Shows the messages that a walk finds, with what they say, and how it ends. */
static void show_messages(const uint8_t *datagram, size_t datagram_len) {
    decklewren_step step = decklewren_step_message(datagram, datagram_len, 0);
    while (step.length != 0) {
        const uint8_t *found = datagram + step.start;
        int said = (int)step.length - DECKLEWREN_MESSAGE_HEAD;
        printf("type %u, source %02x%02x%02x%02x: ", found[0], found[3], found[4], found[5], found[6]);
        printf("\"%.*s\"\n", said, (const char *)found + DECKLEWREN_MESSAGE_HEAD);
        step = decklewren_step_message(datagram, datagram_len, (size_t)(step.start + step.length));
    }
    printf("the walk ends: %s\n", decklewren_status_text(step.status));
}

int main(void) {
    const message messages[] = {{93, 1, "ICE 65N"}, {74, 2, ""}, {93, 1, "TUG 0900"}};
    uint8_t datagram[32];
    compose(datagram, sizeof datagram, messages, sizeof messages / sizeof *messages);
    show_messages(datagram, sizeof datagram);
    return 0;
}
