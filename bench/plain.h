/* A straightforward block writer for links 5 and 19, from the document: the yardstick of `make bench`. */
#ifndef PLAIN_H
#define PLAIN_H

#include <stddef.h>
#include <stdint.h>

/* Writes the image of a datagram that fits, one bit to a byte, and answers N; 0 for any other link. */
size_t plain_write_block(uint32_t link, const uint8_t *datagram, size_t datagram_len, uint8_t *out);

#endif
