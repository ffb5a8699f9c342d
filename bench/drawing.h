/* A line's shifts, drawn by the running error term: how long a table of them takes, beside one made by divisions. */
#ifndef BENCH_DRAWING_H
#define BENCH_DRAWING_H

#include "plan.h"

/* Prints a line for each slope of the plan: seconds of a question about one pixel at L = 1, which is little but the
 * table of the longest side, and of the same table by a division for each column. */
void measure_drawing(const struct plan *plan);

#endif
