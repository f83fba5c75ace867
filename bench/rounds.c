/* Measures two calls in one run: the clock, the rounds and their medians. */
#define _POSIX_C_SOURCE 200809L
#include "bench.h"
#include <stdlib.h>
#include <time.h>

enum { ROUNDS = 301 };

static double now(void) {
    struct timespec t;
    clock_gettime(CLOCK_MONOTONIC, &t);
    return (double)t.tv_sec * 1e9 + (double)t.tv_nsec;
}

static int by_size(const void *a, const void *b) {
    double x = *(const double *)a, y = *(const double *)b;
    return (x > y) - (x < y);
}

static double median(double *rounds) {
    qsort(rounds, ROUNDS, sizeof *rounds, by_size);
    return rounds[ROUNDS / 2];
}

medians in_turn(uint32_t link, size_t held, int calls, call *first, call *second, void (*prepare)(void)) {
    static double a[ROUNDS], b[ROUNDS];
    for (int round = 0; round < ROUNDS; round++) {
        prepare();
        double start = now();
        for (int i = 0; i < calls; i++) first(link, held, i);
        double middle = now();
        for (int i = 0; i < calls; i++) second(link, held, i);
        a[round] = (middle - start) / calls;
        b[round] = (now() - middle) / calls;
    }
    return (medians){median(a), median(b)};
}
