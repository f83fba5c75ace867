/* Standard input and files: bits as characters 0 and 1, datagrams as bytes or as hexadecimal digits. */
#include "tool.h"
#include <stdio.h>

static const char standard_input[] = "standard input";

static int cannot_read(const char *name) {
    fprintf(stderr, "decklewren: %s cannot be read\n", name);
    return NOT_READ_OR_WRITTEN;
}

/* All of a stream that goes by this name, at most 64 KiB. */
static int take(input *into, FILE *stream, const char *name) {
    into->count = fread(into->bytes, 1, sizeof into->bytes, stream);
    if (ferror(stream)) {
        return cannot_read(name);
    }
    if (into->count > INPUT_MOST) {
        fprintf(stderr, "decklewren: %s is longer than 64 KiB\n", name);
        return REFUSED;
    }
    return ENDED_WELL;
}

/* One newline at the end is no bit. Every other character is handed on, '0' as 0 and '1' as 1, all others as another byte, so
   that the library refuses them (document 01, number 4). */
int take_bits(input *into) {
    int taken = take(into, stdin, standard_input);
    if (taken != ENDED_WELL) {
        return taken;
    }
    if (into->count > 0 && into->bytes[into->count - 1] == '\n') {
        into->count--;
    }
    for (size_t place = 0; place < into->count; place++) {
        into->bytes[place] = (uint8_t)(into->bytes[place] - '0');
    }
    return ENDED_WELL;
}

/* The value of a hexadecimal digit, or -1. */
static int digit(uint8_t character) {
    if (character >= '0' && character <= '9') return character - '0';
    if (character >= 'a' && character <= 'f') return character - 'a' + 10;
    if (character >= 'A' && character <= 'F') return character - 'A' + 10;
    return -1;
}

static int is_space(uint8_t character) { return character == ' ' || (character >= '\t' && character <= '\r'); }

/* Two digits to a byte, with spaces and newlines between bytes; the bytes take the digits' place. */
static int from_hex(input *into, const char *name) {
    size_t count = 0;
    for (size_t place = 0; place < into->count; place++) {
        if (is_space(into->bytes[place])) {
            continue;
        }
        int high = digit(into->bytes[place]);
        int low = place + 1 < into->count ? digit(into->bytes[place + 1]) : -1;
        if (high < 0 || low < 0) {
            fprintf(stderr, "decklewren: no hexadecimal byte at character %zu of %s\n", place + 1, name);
            return REFUSED;
        }
        into->bytes[count++] = (uint8_t)(16 * high + low);
        place++;
    }
    into->count = count;
    return ENDED_WELL;
}

static int take_as(input *into, FILE *stream, const char *name, int hex) {
    int taken = take(into, stream, name);
    return taken == ENDED_WELL && hex ? from_hex(into, name) : taken;
}

int take_datagram(input *into, int hex) { return take_as(into, stdin, standard_input, hex); }

int take_file(input *into, const char *name, int hex) {
    FILE *file = fopen(name, "rb");
    if (file == NULL) {
        return cannot_read(name);
    }
    int taken = take_as(into, file, name, hex);
    fclose(file);
    return taken;
}
