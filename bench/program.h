/* What is timed: a program that filters a page as ordered. Sotrugla is one; its peers are others. */
#ifndef BENCH_PROGRAM_H
#define BENCH_PROGRAM_H

#include <stdbool.h>
#include <stdint.h>
#include <time.h>

#include "line.h"
#include "page.h"

/* As in a job ticket. */
enum operation { ERODE = 1, DILATE = 2, OPEN = 3, CLOSE = 4 };

/* boxes: how many boxes of 300 by 60 pixels are hidden; peers have none. The origin is the middle. */
struct order {
    enum operation operation;
    struct slope slope;
    int length, boxes;
};

enum { BOX_WIDTH = 300, BOX_HEIGHT = 60 };

/* Eight boxes across and eight down, evenly over the page. */
static inline struct spot box_corner(const struct page *page, int box)
{
    struct spot corner = {((int)page->width - BOX_WIDTH) * (box % 8) / 7,
                          ((int)page->height - BOX_HEIGHT) * (box / 8) / 7};
    return corner;
}

#ifdef __cplusplus
extern "C" {
#endif

struct program {
    const char *name;
    const char *(*version)(void);
    /* Whether its time grows with L without end, so that a long segment needs a smaller page. */
    bool slows;
    bool (*serves)(struct order order);
    /* Takes a page; what must be made of it before a call is made here, and not timed. */
    void (*take)(const struct page *page);
    /* Filters the page that was taken, once: the CPU seconds of the thread. */
    double (*filter)(struct order order);
    /* The page that the last call made, for comparing. */
    void (*give)(uint8_t *pixels);
};

extern const struct program sotrugla;
#ifdef OPENCV
extern const struct program opencv;
#endif
#ifdef LEPTONICA
extern const struct program leptonica;
#endif

#ifdef __cplusplus
}
#endif

/* Of this thread alone: what other programs do on the machine counts as little as can be. */
static inline double cpu_seconds(void)
{
    struct timespec now;
    clock_gettime(CLOCK_THREAD_CPUTIME_ID, &now);
    return (double)now.tv_sec + 1e-9 * (double)now.tv_nsec;
}

static inline double least(double one, double other)
{
    return one < other ? one : other;
}

#endif
