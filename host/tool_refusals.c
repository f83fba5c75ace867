/* A refusal on standard error: its number, its words, and in brackets what was got and what was needed. */
#include "tool.h"
#include <stdarg.h>
#include <stdio.h>

/* The words of a refusal and the end of its line. */
static int put_words(uint32_t status, const char *got, va_list values) {
    fprintf(stderr, ": %s", decklewren_status_text(status));
    if (got != NULL) {
        fputs(" (", stderr);
        vfprintf(stderr, got, values);
        fputs(")", stderr);
    }
    fputs("\n", stderr);
    return REFUSED;
}

int refuse(uint32_t status, const char *got, ...) {
    va_list values;
    va_start(values, got);
    fprintf(stderr, "decklewren: refusal %u", (unsigned)status);
    int ended = put_words(status, got, values);
    va_end(values);
    return ended;
}

int refuse_at(uint32_t status, size_t position, const char *got, ...) {
    va_list values;
    va_start(values, got);
    fprintf(stderr, "decklewren: refusal %u at %zu", (unsigned)status, position);
    int ended = put_words(status, got, values);
    va_end(values);
    return ended;
}

/* A datagram that is not written: the link that was asked for, or how long it is and may be. */
int refuse_writing(uint32_t status, const request *asked, size_t came) {
    if (status == DECKLEWREN_NOT_OFFERED) {
        return refuse(status, "link %s was asked for", asked->typed);
    }
    return refuse(status, "%zu bytes came, link %s holds %zu", came, asked->typed, decklewren_held(narrowed(asked->number)));
}

/* Bits of another length than `what` has. A character that is no bit is told too: a carriage return is often why there are more. */
int refuse_length(const input *bits, const char *what, size_t needed) {
    if (other_place(bits) == bits->count) {
        return refuse(DECKLEWREN_WRONG_LENGTH, "%zu bits came, %s has %zu", bits->count, what, needed);
    }
    return refuse(DECKLEWREN_WRONG_LENGTH, "%zu characters came, %s has %zu bits; character %zu is %s", bits->count, what, needed,
                  other_place(bits) + 1, other_name(bits));
}

int refuse_no_bit(const input *bits) {
    return refuse(DECKLEWREN_NO_BIT, "character %zu is %s", other_place(bits) + 1, other_name(bits));
}
