/* A list of jobs in one call, beside a call for each of its jobs. */
#ifndef BENCH_TRAY_H
#define BENCH_TRAY_H

#include "plan.h"

/* Prints a line for each kind of list: seconds of a call for each job, of one call for all of them, and the latter as
 * a multiple of the former. Of the plan only the rounds are used: the pages have sides of their own, down to the
 * smallest, where a call's own cost shows most. */
void measure_tray(const struct plan *plan);

#endif
