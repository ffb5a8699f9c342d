/* One program under one order on one page: its best call so far. */
#ifndef BENCH_TIMING_H
#define BENCH_TIMING_H

#include "program.h"

struct timing {
    const struct program *program;
    struct order order;
    size_t rows; /* of the page, timed; 0 before the first call */
    double best, spent;
    int calls;
};

struct timing not_timed(const struct program *program, struct order order);

/* So many calls more, but for a peer that has had its time. The program must have taken the page, and has taken
 * it afterwards. */
void time_calls(struct timing *timing, const struct page *page, int calls);

#endif
