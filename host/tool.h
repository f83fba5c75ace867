/* What the parts of the command line tool share. */
#ifndef TOOL_H
#define TOOL_H

#include "decklewren.h"

/* How the tool ends. */
enum { ENDED_WELL = 0, REFUSED = 1, WRONG_USAGE = 2, NOT_READ_OR_WRITTEN = 3 };

/* Bytes of standard input or of a file that are taken: 64 KiB. */
enum { INPUT_MOST = 65536 };

/* The options, as members of a set: -x, --parts, --seed, --type, --source, --into, --at. */
enum { HEX = 1, PARTS = 2, SEED = 4, TYPE = 8, SOURCE = 16, INTO = 32, AT = 64 };

/* What the command line asks for. A number too large for its place is taken as the largest there, never cut to another one, or is wrong
   usage where its option has a limit; `typed` is the number as it stands on the command line. `given` is the set of the options there, and what stands behind each follows it.
   `part` is the length of the parts that a burst is read by, 0 for the whole. */
typedef struct {
    const char *typed;
    uint64_t number;
    unsigned given;
    uint64_t part, seed, type, source, at;
    const char *into;
} request;

/* A command: whether it takes a number, and the set of the options that it takes. */
enum need { NONE, OPTIONAL, NEEDED };
typedef struct {
    const char *name;
    enum need number;
    unsigned takes;
    int (*run)(const request *asked);
} command;

/* tool_arguments.c: takes what stands behind a command, and answers 0 with the fault on standard error where it cannot. */
int take_arguments(const command *called, char **arguments, int count, request *asked);
int wrong_usage(const char *fault, ...);

/* Standard input or a file, as bits one to a byte or as a datagram. */
typedef struct {
    uint8_t bytes[INPUT_MOST + 1];
    size_t count;
} input;

/* tool_input.c: each reads standard input, or the file of this name, to its end and answers how the tool ends, with a line on
   standard error where it cannot be taken. */
int take_bits(input *into);
int take_datagram(input *into, int hex);
int take_file(input *into, const char *name, int hex);

/* tool_output.c: a row of bits, a datagram, and a good end: what went to standard output is written before the counts are told. */
void put_bits(const uint8_t *bits, size_t count);
void put_datagram(const uint8_t *datagram, size_t count, int hex);
int end_well(const char *counts, ...);

/* tool_refusals.c: a refusal by number and in words, with what was got and what was needed, or NULL for no more words. Each answers
   REFUSED. */
int refuse(uint32_t status, const char *got, ...);
int refuse_at(uint32_t status, size_t position, const char *got, ...);
int refuse_writing(uint32_t status, const request *asked, size_t came);
int refuse_length(const input *bits, const char *what, size_t needed);
int refuse_no_bit(const input *bits);

/* tool_characters.c: the first character of the bits that is neither 0 nor 1, as its place, or the count where there is none; and how
   it is called in a message. */
size_t other_place(const input *bits);
const char *other_name(const input *bits);

/* The commands, in tool_links.c, tool_words.c, tool_blocks.c, tool_slots.c, tool_step.c, tool_messages.c and tool_damage.c. Each
   answers how the tool ends. */
int run_links(const request *asked);
int run_word(const request *asked);
int run_read_word(const request *asked);
int run_write(const request *asked);
int run_read(const request *asked);
int run_write_slot(const request *asked);
int run_read_slot(const request *asked);
int run_step(const request *asked);
int run_write_message(const request *asked);
int run_zero_fill(const request *asked);
int run_damage(const request *asked);

/* tool_arguments.c: a number as the library takes links; one above 32 bits stays above every link (document 01 offers none of them). */
uint32_t narrowed(uint64_t number);

#endif
