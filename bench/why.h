/* Why a pixel came out so: how long a question takes, beside the job that it asks about. */
#ifndef BENCH_WHY_H
#define BENCH_WHY_H

#include "plan.h"

/* Prints a line for each kind of question: seconds of the longest answer to pixels of a page, and of an opening of that
 * page. The plan's page has segments of 51 steps along its slopes; a page of one long row has the longest ones. */
void measure_why(const struct plan *plan);

#endif
