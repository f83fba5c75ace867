/* decklewren word N, read-word: link words (document 01, "Link words"). */
#include "tool.h"
#include <stdio.h>

int run_word(const request *asked) {
    uint8_t word[DECKLEWREN_WORD_BITS];
    decklewren_written written = decklewren_write_word(narrowed(asked->number), word, sizeof word);
    if (written.status != DECKLEWREN_DONE) {
        return refuse(written.status, "%s was asked for", asked->typed);
    }
    put_bits(word, written.count);
    return end_well("count=%u\n", (unsigned)written.count);
}

int run_read_word(const request *asked) {
    static input bits;
    (void)asked;
    int taken = take_bits(&bits);
    if (taken != ENDED_WELL) {
        return taken;
    }
    decklewren_word word = decklewren_read_word(bits.bytes, bits.count);
    switch (word.status) {
    case DECKLEWREN_DONE: break;
    case DECKLEWREN_WRONG_LENGTH: return refuse_length(&bits, "a link word", DECKLEWREN_WORD_BITS);
    case DECKLEWREN_NO_BIT: return refuse_no_bit(&bits);
    default: return refuse(word.status, NULL);
    }
    printf("%u\n", (unsigned)word.number);
    return end_well("wrong=%u\n", (unsigned)word.wrong);
}
