/* Reading a P5 file: its header, and each of its pixels held to its maximum. */
#ifndef BENCH_READING_H
#define BENCH_READING_H

#include "plan.h"

/* Prints a line for each slope of the plan: seconds of a reading of the page's file, and of an opening of that page. */
void measure_reading(const struct plan *plan);

#endif
