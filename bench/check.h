/* That what is timed is right: a small page against a brute-force reading of the law, and a whole page
 * against a peer where its definition is the same. */
#ifndef BENCH_CHECK_H
#define BENCH_CHECK_H

#include "program.h"

/* One order on a small page of noise. The first wrong pixel ends the program. */
void check_small_page(struct order order);

/* How many of the pixels that two programs gave last are different. */
size_t count_differences(const struct program *one, const struct program *other, size_t pixels);

#endif
