/* Characters among the bits that are neither 0 nor 1: where the first stands, and what to call it. */
#include "tool.h"
#include <stdio.h>

size_t other_place(const input *bits) {
    size_t place = 0;
    while (place < bits->count && bits->bytes[place] <= 1) place++;
    return place;
}

/* What cannot be seen is called by its name, other signs stand in quotes, all else is a byte by its value. */
const char *other_name(const input *bits) {
    static char text[16];
    int character = (uint8_t)(bits->bytes[other_place(bits)] + '0');
    switch (character) {
    case ' ': return "a blank";
    case '\t': return "a tab";
    case '\n': return "a newline";
    case '\r': return "a carriage return";
    default: break;
    }
    snprintf(text, sizeof text, character > ' ' && character <= '~' ? "'%c'" : "byte 0x%02x", character);
    return text;
}
