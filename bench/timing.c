#include "timing.h"

/* A call that would take longer is timed on the page's first rows. */
static const double LONGEST_CALL = 2;
/* A peer that has taken this long for its calls is not called again. */
static const double LONGEST_CASE = 0.5;
/* The part of a page that shows how long the whole will take. */
enum { SAMPLE = 16 };

struct timing not_timed(const struct program *program, struct order order)
{
    return (struct timing){.program = program, .order = order, .best = 1e9};
}

static void take_rows(const struct timing *timing, const struct page *page, size_t rows)
{
    struct page part = {page->width, rows, page->pixels};
    timing->program->take(&part);
}

static size_t rows_to_time(const struct timing *timing, const struct page *page)
{
    if (!timing->program->slows)
        return page->height;
    take_rows(timing, page, page->height / SAMPLE);
    double whole = SAMPLE * timing->program->filter(timing->order);
    take_rows(timing, page, page->height);
    return whole <= LONGEST_CALL ? page->height : (size_t)((double)page->height * LONGEST_CALL / 2 / whole);
}

static bool is_over(const struct timing *timing)
{
    return timing->program != &sotrugla && timing->spent > LONGEST_CASE;
}

void time_calls(struct timing *timing, const struct page *page, int calls)
{
    if (is_over(timing))
        return;
    if (!timing->rows)
        timing->rows = rows_to_time(timing, page);
    if (timing->rows < page->height)
        take_rows(timing, page, timing->rows);
    for (int call = 0; call < calls && !is_over(timing); call++) {
        double seconds = timing->program->filter(timing->order);
        timing->best = least(timing->best, seconds);
        timing->spent += seconds, timing->calls++;
    }
    if (timing->rows < page->height)
        take_rows(timing, page, page->height);
}
