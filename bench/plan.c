#include "plan.h"

/* Each slope and its mirror, as tickets allow them: (1,0) and (0,1) are their own. */
#define ALL_SLOPES                                                                                    \
    {{1, 0}, {0, 1}, {1, 1}, {1, -1}, {5, 3}, {5, -3}, {20, 1}, {20, -1}, {3, 5}, {-3, 5}, {1, 20}, {-1, 20}}

/* 300 dpi. */
const struct plan A4_PLAN = {"A4", 2480, 3508, 2, SLOPES, 5, {OPEN, ERODE}, ALL_SLOPES,
                             {3, 11, 51, 201, 1001}, 2, 4, 3};

/* The largest sides that are not refused. */
const struct plan LARGEST_PLAN = {"8192", 8192, 8192, 1, SLOPES, 3, {OPEN}, ALL_SLOPES, {3, 51, 1001}, 2, 2, 1};

const struct plan QUICK_PLAN = {"A4", 2480, 3508, 1, 4, 4, {OPEN}, {{1, 0}, {0, 1}, {5, 3}, {-1, 20}},
                                {3, 11, 51, 201}, 1, 2, 3};
