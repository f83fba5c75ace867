#include "decklewren.h"
#include <stdio.h>

/* Shows every message of a datagram in turn, and answers the step that ended the walk. */
static decklewren_step show_messages(const uint8_t *datagram, size_t datagram_len) {
    size_t position = 0;
    for (;;) {
        decklewren_step step = decklewren_step_message(datagram, datagram_len, position);
        if (step.length == 0) {
            return step;
        }
        printf("type %u, %u bytes at %u\n", datagram[step.start], (unsigned)step.length, (unsigned)step.start);
        position = (size_t)(step.start + step.length);
    }
}

/* Shows how a walk ended. A message that lies has its place in the answer; the spoilt zero fill, refusal 10, has none. */
static void show_end(decklewren_step last) {
    const char *words = decklewren_status_text(last.status);
    switch (last.status) {
    case DECKLEWREN_DONE:
        printf("finished\n");
        break;
    case DECKLEWREN_FEW_LEFT:
    case DECKLEWREN_SMALL_LENGTH:
    case DECKLEWREN_MESSAGE_PAST_END:
        printf("refusal %u at %u: %s, missing %u\n", (unsigned)last.status, (unsigned)last.start, words, (unsigned)last.missing);
        break;
    default:
        printf("refusal %u: %s\n", (unsigned)last.status, words);
    }
}

int main(void) {
    const uint8_t two[20] = {74, 0, 7, 0, 0, 0, 1, 81, 75, 0, 8, 0, 0, 0, 2, 9, 81, 81, 0, 0};
    const uint8_t small[16] = {74, 0, 7, 0, 0, 0, 1, 81, 75, 0, 6, 0, 0, 0, 2, 9};
    const uint8_t lie[32] = {74, 900 / 256, 900 % 256, 0, 0, 0, 1};
    show_end(show_messages(two, sizeof two));
    show_end(show_messages(small, sizeof small));
    show_end(show_messages(lie, sizeof lie));
    return 0;
}
