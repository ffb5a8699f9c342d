/* What is measured on a page: every operation with every slope and every length. */
#ifndef BENCH_PLAN_H
#define BENCH_PLAN_H

#include "program.h"

enum { SLOPES = 12, LENGTHS = 5 };

struct plan {
    const char *page;
    size_t width, height;
    size_t operation_count, slope_count, length_count;
    enum operation operations[2];
    struct slope slopes[SLOPES];
    int lengths[LENGTHS];
    int drawings; /* 1: text alone, 2: noise too */
    int rounds;   /* over all of it */
    int calls;    /* in a round: later ones find in the cache what fits there */
};

extern const struct plan A4_PLAN, LARGEST_PLAN, QUICK_PLAN;

#endif
