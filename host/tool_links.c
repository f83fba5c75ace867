/* decklewren links: the table of the links, with the bytes that a datagram may have, the bits of its image and, for links with
   slot bursts, the bits of a burst. */
#include "tool.h"
#include <stdio.h>

static void put_link(unsigned link, unsigned held, unsigned image) {
    printf("%4u %5u %6u ", link, held, image);
    if (decklewren_burst(link) == 0) {
        printf("%6s\n", "-");
    } else {
        printf("%6zu\n", decklewren_burst(link));
    }
}

int run_links(const request *asked) {
    (void)asked;
    printf("%4s %5s %6s %6s\n", "link", "bytes", "image", "burst");
#define LINK(number, held, image) put_link(number, held, image);
    DECKLEWREN_LINKS(LINK)
    return end_well(NULL);
}
