/* What the parts of `make bench` share. */
#ifndef BENCH_H
#define BENCH_H

#include <stddef.h>
#include <stdint.h>

/* A call that is measured, on a link whose datagrams have `held` bytes: the call number i of a round. */
typedef void call(uint32_t link, size_t held, int i);

/* Nanoseconds that a call takes, as the median of the rounds. */
typedef struct {
    double first, second;
} medians;

/* rounds.c: measures two calls, a round of one and of the other in turn; what `prepare` does before these two is not timed. */
medians in_turn(uint32_t link, size_t held, int calls, call *first, call *second, void (*prepare)(void));

/* parts.c: slot bursts read by parts. */
void measure_parts(void);

#endif
