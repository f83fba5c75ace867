/* Standard output: a row of bits or a datagram, and the end of a command that went well. */
#include "tool.h"
#include <stdarg.h>
#include <stdio.h>

/* Bits as one line of characters 0 and 1. */
void put_bits(const uint8_t *bits, size_t count) {
    for (size_t place = 0; place < count; place++) {
        putchar('0' + bits[place]);
    }
    putchar('\n');
}

/* A datagram as it is, or as one line of hexadecimal digits. */
void put_datagram(const uint8_t *datagram, size_t count, int hex) {
    if (!hex) {
        fwrite(datagram, 1, count, stdout);
        return;
    }
    for (size_t place = 0; place < count; place++) {
        printf("%02x", datagram[place]);
    }
    putchar('\n');
}

int end_well(const char *counts, ...) {
    if (fflush(stdout) != 0 || ferror(stdout)) {
        fprintf(stderr, "decklewren: standard output cannot be written\n");
        return NOT_READ_OR_WRITTEN;
    }
    if (counts != NULL) {
        va_list values;
        va_start(values, counts);
        vfprintf(stderr, counts, values);
        va_end(values);
    }
    return ENDED_WELL;
}
