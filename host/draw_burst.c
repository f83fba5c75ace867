/* Draws docs/slot-burst.svg: the slot bursts of links 5, 6 and 7 with their fields, to one scale, from the header's numbers. */
#include "decklewren.h"
#include <stdio.h>

/* Bits of the check behind a datagram (document 01, "From datagram to block"). */
enum { CHECK_BITS = 32 };

/* The sheet in points: its size, the left edge of every burst, and the heights of bars and rows. */
enum { WIDTH = 960, HEIGHT = 620, LEFT = 32, FIRST_ROW = 88, BAR = 36, BETWEEN = 34, ROW = 152 };

static const char *const TRAINING = "#f6c667", *const WORD = "#9ad1b3", *const IMAGE = "#a9c7ee", *const DATAGRAM = "#dbe7f7",
                  *const CHECK = "#f2a7a0";

/* The longest burst is 896 points wide. */
static double points(size_t bits) { return 896.0 * (double)bits / DECKLEWREN_BURST_MOST; }

static void put_text(double x, double y, const char *look, const char *text) {
    printf("  <text x=\"%.1f\" y=\"%.1f\" class=\"%s\">%s</text>\n", x, y, look, text);
}

/* A field of this many bits, with its words in the middle. */
static void put_field(double x, double y, size_t bits, const char *colour, const char *words) {
    printf("  <rect x=\"%.1f\" y=\"%.1f\" width=\"%.1f\" height=\"%d\" ", x, y, points(bits), BAR);
    printf("fill=\"%s\" stroke=\"#33415c\"/>\n", colour);
    put_text(x + points(bits) / 2, y + BAR / 2.0 + 4.5, "in", words);
}

/* The block below its image, and the lines that join the two. */
static void put_block(uint32_t link, double x, double y) {
    char words[80];
    size_t held = decklewren_held(link), image = decklewren_image(link), block = 8 * held + CHECK_BITS;
    double below = y + BAR + BETWEEN;
    printf("  <path d=\"M%.1f %.1fV%.1fM%.1f %.1fL%.1f %.1f\" class=\"join\"/>\n", x, y + BAR, below, x + points(image), y + BAR,
           x + points(block), below);
    snprintf(words, sizeof words, "datagram, %zu bytes", held);
    put_field(x, below, 8 * held, DATAGRAM, words);
    snprintf(words, sizeof words, "%d", CHECK_BITS);
    put_field(x + points(8 * held), below, CHECK_BITS, CHECK, words);
    snprintf(words, sizeof words, "%zu bits, coded to %zu", block, image);
    put_text(x + points(block) + 10, below + BAR / 2.0 + 4.5, "out", words);
}

static void put_burst(uint32_t link, size_t burst, double y) {
    char words[80];
    double word = LEFT + points(DECKLEWREN_TRAINING_BITS), block = word + points(DECKLEWREN_WORD_BITS);
    snprintf(words, sizeof words, "Link %u: %zu bits", (unsigned)link, burst);
    put_text(LEFT, y - 8, "head", words);
    snprintf(words, sizeof words, "%d", DECKLEWREN_TRAINING_BITS);
    put_field(LEFT, y, DECKLEWREN_TRAINING_BITS, TRAINING, words);
    snprintf(words, sizeof words, "%d", DECKLEWREN_WORD_BITS);
    put_field(word, y, DECKLEWREN_WORD_BITS, WORD, words);
    snprintf(words, sizeof words, "block image, %zu bits", decklewren_image(link));
    put_field(block, y, decklewren_image(link), IMAGE, words);
    put_block(link, block, y);
}

/* A coloured square and what it stands for; answers where the next one begins. */
static double put_key(double x, const char *colour, const char *words, double wide) {
    printf("  <rect x=\"%.1f\" y=\"%d\" width=\"14\" height=\"14\" fill=\"%s\" stroke=\"#33415c\"/>\n", x, FIRST_ROW - 56, colour);
    put_text(x + 20, FIRST_ROW - 44, "out", words);
    return x + wide;
}

static void put_keys(void) {
    double x = put_key(LEFT, TRAINING, "training", 96);
    x = put_key(x, WORD, "link word", 104);
    x = put_key(x, IMAGE, "block image", 120);
    x = put_key(x, DATAGRAM, "datagram, filled with zero bytes", 264);
    put_key(x, CHECK, "check bits", 0);
}

static void put_start(void) {
    printf("<svg xmlns=\"http://www.w3.org/2000/svg\" width=\"%d\" height=\"%d\" viewBox=\"0 0 %d %d\"", WIDTH, HEIGHT, WIDTH, HEIGHT);
    printf(" font-family=\"sans-serif\" font-size=\"14\">\n");
    printf("  <title>Slot bursts of links 5, 6 and 7, bit by bit to one scale</title>\n");
    printf("  <style>text { fill: #1d2433 } .in { text-anchor: middle; font-size: 12px } .head { font-weight: bold }"
           " .join { fill: none; stroke: #33415c; stroke-dasharray: 4 3 }</style>\n");
    printf("  <rect x=\"0.5\" y=\"0.5\" width=\"%d\" height=\"%d\" ", WIDTH - 1, HEIGHT - 1);
    printf("rx=\"8\" fill=\"#ffffff\" stroke=\"#c3c9d5\"/>\n");
}

/* What the fields are, below the bursts. */
static void put_notes(double y) {
    put_text(LEFT, y, "out", "Numbers in the fields are bits. The training is 27 symbols of two equal bits; up to eight bits may be wrong.");
    put_text(LEFT, y + 22, "out", "The link word names the link; up to seven of its bits may be wrong.");
    put_text(LEFT, y + 44, "out", "The block is the datagram and its check. Coded and scrambled it is the image; one bit of that may be wrong.");
}

int main(void) {
    double y = FIRST_ROW;
    put_start();
    put_keys();
#define BURST(link, burst)     \
    put_burst(link, burst, y); \
    y += ROW;
    DECKLEWREN_SLOT_LINKS(BURST)
    put_notes(y);
    printf("</svg>\n");
    return 0;
}
