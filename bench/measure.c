/* Times Sotrugla and its peers and prints what was measured, one line each, fields parted by tabs:
 *   program      name, version
 *   checked      what was found right, in words
 *   memcpy       page, drawing, pixels, seconds, seconds through pages in turn
 *   time         page, drawing, program, operation, dx, dy, L, boxes, pixels timed, seconds, calls
 *   document001  operation, degrees, pixels, seconds of ours, by pixel, by page
 *   reading      page, drawing, dx, dy, L, pixels, seconds of reading its P5 file, of an opening
 *   tray         page, drawing, dx, dy, L, which jobs finish, jobs, pairs timed, seconds of a call for each job, of one
 *                call for all, the latter as a multiple of the former
 *   why          page, drawing, operation, dx, dy, L, boxes, pixels asked about, seconds of the longest answer, of the
 *                operation on the page
 *   drawing      dx, dy, seconds of a question at L = 1, of the table that it fills by a division for each column
 * bench/report.py makes the table of it. With --quick a small part is measured. */
#include <malloc.h>
#include <stdio.h>
#include <string.h>

#include "check.h"
#include "document001.h"
#include "drawing.h"
#include "memory.h"
#include "plan.h"
#include "reading.h"
#include "timing.h"
#include "tray.h"
#include "why.h"

enum { BOXES = 64 };

static const struct program *const programs[] = {
    &sotrugla,
#ifdef OPENCV
    &opencv,
#endif
#ifdef LEPTONICA
    &leptonica,
#endif
};
/* Two operations and two numbers of boxes. */
enum { PROGRAMS = sizeof programs / sizeof *programs, MOST_CASES = 2 * 2 * SLOPES * LENGTHS * PROGRAMS };

struct drawing {
    const char *name;
    void (*draw)(struct page *page);
};
static const struct drawing DRAWINGS[] = {{"text", draw_text}, {"noise", draw_noise}};

static const char *operation_name(enum operation operation)
{
    return operation == ERODE ? "erosion" : "opening";
}

/* Programs and numbers of boxes change fastest: what is compared is timed within a short while. */
static size_t list_cases(const struct plan *plan, struct timing *cases)
{
    size_t count = 0;
    for (size_t operation = 0; operation < plan->operation_count; operation++)
        for (size_t slope = 0; slope < plan->slope_count; slope++)
            for (size_t length = 0; length < plan->length_count; length++)
                for (size_t program = 0; program < PROGRAMS; program++)
                    for (int boxes = 0; boxes <= BOXES; boxes += BOXES) {
                        struct order order = {plan->operations[operation], plan->slopes[slope],
                                              plan->lengths[length], boxes};
                        if (programs[program]->serves(order))
                            cases[count++] = not_timed(programs[program], order);
                    }
    return count;
}

static void print_timing(const struct plan *plan, const char *drawing, const struct timing *timing)
{
    struct order order = timing->order;
    printf("time\t%s\t%s\t%s\t%s\t%d\t%d\t%d\t%d\t%zu\t%.9f\t%d\n", plan->page, drawing,
           timing->program->name, operation_name(order.operation), order.slope.dx, order.slope.dy,
           order.length, order.boxes, plan->width * timing->rows, timing->best, timing->calls);
}

/* Openings with L = 51, where a segment has one shape: there a peer must give the very same page. */
static void compare_peer(const struct plan *plan, const char *drawing, const struct page *page,
                         const struct program *peer)
{
    size_t differences = 0;
    printf("checked\t%s %s, opening, L 51, along", plan->page, drawing);
    for (size_t slope = 0; slope < plan->slope_count; slope++) {
        struct order order = {OPEN, plan->slopes[slope], 51, 0};
        if (!has_one_shape(order.slope) || !peer->serves(order))
            continue;
        sotrugla.filter(order), peer->filter(order);
        differences += count_differences(&sotrugla, peer, page_bytes(page));
        printf(" (%d,%d)", order.slope.dx, order.slope.dy);
    }
    printf(": %zu pixels differ from %s's\n", differences, peer->name);
}

/* A page that every program has taken. */
static struct page drawn_page(const struct plan *plan, const struct drawing *drawing)
{
    struct page page = blank_page(plan->width, plan->height);
    drawing->draw(&page);
    for (size_t program = 0; program < PROGRAMS; program++)
        programs[program]->take(&page);
    return page;
}

/* Where a page stands in the machine's memory moves some times by a tenth, so that each round has one of its
 * own. The old one is left last: else the new one would stand where it stood. */
static struct page drawn_elsewhere(const struct plan *plan, const struct drawing *drawing, struct page old)
{
    struct page page = drawn_page(plan, drawing);
    leave_page(&old);
    return page;
}

static void measure_page(const struct plan *plan, const struct drawing *drawing)
{
    static struct timing cases[MOST_CASES];
    struct page page = drawn_page(plan, drawing);
    size_t count = list_cases(plan, cases);
    double copied = 1e9, copied_in_turn = copy_in_turn(&page);
    for (size_t peer = 1; peer < PROGRAMS; peer++)
        compare_peer(plan, drawing->name, &page, programs[peer]);
    for (int round = 1; round <= plan->rounds; round++) {
        fprintf(stderr, "measure: %s %s, round %d of %d\n", plan->page, drawing->name, round, plan->rounds);
        for (size_t at = 0; at < count; at++)
            time_calls(&cases[at], &page, plan->calls);
        copied = least(copied, copy_in_place(&page));
        if (round < plan->rounds)
            page = drawn_elsewhere(plan, drawing, page);
    }
    printf("memcpy\t%s\t%s\t%zu\t%.9f\t%.9f\n", plan->page, drawing->name, page_bytes(&page), copied,
           copied_in_turn);
    for (size_t at = 0; at < count; at++)
        print_timing(plan, drawing->name, &cases[at]);
    leave_page(&page);
}

static void measure(const struct plan *plan)
{
    for (int drawing = 0; drawing < plan->drawings; drawing++)
        measure_page(plan, &DRAWINGS[drawing]);
}

/* Longer segments than 201 are left out: the brute force would take most of the time. */
static void check(const struct plan *plan)
{
    int jobs = 0;
    for (size_t slope = 0; slope < plan->slope_count; slope++)
        for (size_t length = 0; length < plan->length_count; length++)
            for (int boxes = 0; boxes <= 2 && plan->lengths[length] <= 201; boxes += 2)
                for (size_t operation = 0; operation < plan->operation_count; operation++, jobs++)
                    check_small_page((struct order){plan->operations[operation],
                        plan->slopes[slope], plan->lengths[length], boxes});
    printf("checked\t%d jobs on a small page give the pixels of a brute-force reading of the law\n", jobs);
}

int main(int count, char **words)
{
    bool quick = count > 1 && !strcmp(words[1], "--quick");
    /* Memory that a program gives back stays with the process: no call pays for fresh pages of it. */
    mallopt(M_MMAP_MAX, 0);
    mallopt(M_TRIM_THRESHOLD, -1);
    for (size_t program = 0; program < PROGRAMS; program++)
        printf("program\t%s\t%s\n", programs[program]->name, programs[program]->version());
    check(quick ? &QUICK_PLAN : &A4_PLAN);
    repeat_document001(quick ? 15 : 1, 3);
    measure_reading(quick ? &QUICK_PLAN : &A4_PLAN);
    measure_tray(quick ? &QUICK_PLAN : &A4_PLAN);
    measure_why(quick ? &QUICK_PLAN : &A4_PLAN);
    measure_drawing(quick ? &QUICK_PLAN : &A4_PLAN);
    measure(quick ? &QUICK_PLAN : &A4_PLAN);
    if (!quick)
        measure(&LARGEST_PLAN);
    return 0;
}
