/* The connected lines of the law ('Lines', phase 0): where a step along a slope lands. */
#ifndef BENCH_LINE_H
#define BENCH_LINE_H

#include <stdbool.h>
#include <stdlib.h>

struct slope {
    int dx, dy;
};

struct spot {
    int column, row;
};

static inline bool is_steep(struct slope slope)
{
    return abs(slope.dx) < slope.dy;
}

/* Along rows, columns and diagonals a segment has the same shape wherever it starts; along other slopes the rounding
 * differs from place to place, and a filter with one fixed segment gives slightly other pages. */
static inline bool has_one_shape(struct slope slope)
{
    return abs(slope.dx) <= 1 && abs(slope.dy) <= 1;
}

/* D of the law: how far the line through the corner has gone sideways, rounded, ties away from zero. At places before
 * the corner it is not D, but a step there is off the page whatever this says. */
static inline int line_shift(struct slope slope, int at)
{
    int major = is_steep(slope) ? slope.dy : slope.dx, minor = is_steep(slope) ? slope.dx : slope.dy;
    int size = (2 * at * abs(minor) + major) / (2 * major);
    return minor < 0 ? -size : size;
}

static inline struct spot step_from(struct slope slope, struct spot from, int steps)
{
    int start = is_steep(slope) ? from.row : from.column;
    int sideways = line_shift(slope, start + steps) - line_shift(slope, start);
    from.column += is_steep(slope) ? sideways : steps;
    from.row += is_steep(slope) ? steps : sideways;
    return from;
}

#endif
