/* Copying a page: the measure that the filters' times are held against. */
#ifndef BENCH_MEMORY_H
#define BENCH_MEMORY_H

#include "page.h"

/* Seconds of a memcpy of the page to one place, best of many: what the ratios use. A page that fits the
 * machine's cache is copied within it. */
double copy_in_place(const struct page *page);

/* The same through pages that take turns in 512 MB of memory, more than a cache holds. */
double copy_in_turn(const struct page *page);

#endif
