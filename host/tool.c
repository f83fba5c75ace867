/* decklewren, the command line tool: commands for all the calls of the library, with a request on the command line and on standard
   input, its bytes on standard output and its numbers on standard error. */
#include "tool.h"
#include <stdio.h>
#include <string.h>

static const char help[] =
    "usage: decklewren COMMAND\n"
    "\n"
    "  links                       the links, the bytes that they hold, the bits of an image and of a slot burst\n"
    "  word N                      writes the link word of a number\n"
    "  read-word                   reads a link word and prints its number\n"
    "  write LINK [-x]             writes the image of a datagram's block\n"
    "  read LINK [-x]              reads the image of a block and prints the datagram\n"
    "  write-slot LINK [-x]        writes the slot burst of a datagram\n"
    "  read-slot [-x] [--parts N]  reads a slot burst, whole or by parts of N bits, and prints the datagram\n"
    "  step [POSITION] [-x]        prints start and length of each message of a datagram, or of the next from a position on\n"
    "  write-message --type T --source S [-x] [--into FILE [--at START]]\n"
    "                              writes the message of a body, alone or into the datagram in a file (at 0 if no start is given)\n"
    "  zero-fill SIZE [-x]         fills a datagram with zeros up to SIZE bytes\n"
    "  damage N [--seed S]         inverts N different bits; the same ones each time for one seed (1 if none is given)\n"
    "  help                        prints this, as --help and -h do; --version prints the version\n"
    "\n"
    "Input comes from standard input and FILE, each at most 64 KiB. Bits are characters 0 and 1 and end with a newline;\n"
    "one newline at the end of the input is no bit. Datagrams and bodies are bytes, or hexadecimal digits with -x. Counts\n"
    "go to standard error, once the output is written. Places and positions count from 0, characters of the input from 1.\n"
    "Exit status: 0 done; 1 refused, with the reason on standard error and nothing on standard output; 2 wrong usage;\n"
    "3 input cannot be read or output cannot be written.\n";

static const command commands[] = {
    {"links", NONE, 0, run_links},
    {"word", NEEDED, 0, run_word},
    {"read-word", NONE, 0, run_read_word},
    {"write", NEEDED, HEX, run_write},
    {"read", NEEDED, HEX, run_read},
    {"write-slot", NEEDED, HEX, run_write_slot},
    {"read-slot", NONE, HEX | PARTS, run_read_slot},
    {"step", OPTIONAL, HEX, run_step},
    {"write-message", NONE, TYPE | SOURCE | HEX | INTO | AT, run_write_message},
    {"zero-fill", NEEDED, HEX, run_zero_fill},
    {"damage", NEEDED, SEED, run_damage},
};

static const command *find(const char *name) {
    for (size_t n = 0; n < sizeof commands / sizeof *commands; n++) {
        if (strcmp(commands[n].name, name) == 0) return &commands[n];
    }
    return NULL;
}

static int asks_for_help(int count, char **arguments) {
    if (strcmp(arguments[1], "help") == 0) return 1;
    for (int n = 1; n < count; n++) {
        if (strcmp(arguments[n], "--help") == 0 || strcmp(arguments[n], "-h") == 0) return 1;
    }
    return 0;
}

int main(int count, char **arguments) {
    request asked = {.seed = 1};
    if (count < 2) {
        fputs(help, stderr);
        return wrong_usage("a command is missing");
    }
    if (asks_for_help(count, arguments)) {
        fputs(help, stdout);
        return end_well(NULL);
    }
    if (strcmp(arguments[1], "--version") == 0) {
        puts("decklewren " DECKLEWREN_VERSION);
        return end_well(NULL);
    }
    const command *called = find(arguments[1]);
    if (called == NULL) {
        return wrong_usage("there is no command '%s'", arguments[1]);
    }
    return take_arguments(called, arguments + 2, count - 2, &asked) ? called->run(&asked) : WRONG_USAGE;
}
