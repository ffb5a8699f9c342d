#include "check.h"

#include <stdio.h>
#include <string.h>

/* A little larger than a box, so that windows reach around it. */
enum { SIDE_ACROSS = BOX_WIDTH + 40, SIDE_DOWN = BOX_HEIGHT + 10, PIXELS = SIDE_ACROSS * SIDE_DOWN };

/* What a hidden pixel holds here, and any pixel off the page: it is left out. */
enum { ABSENT = -1 };

static int seen(const int *page, struct spot at)
{
    bool inside = at.column >= 0 && at.column < SIDE_ACROSS && at.row >= 0 && at.row < SIDE_DOWN;
    return inside ? page[at.row * SIDE_ACROSS + at.column] : ABSENT;
}

static int extreme(const int *page, struct slope slope, struct spot from, int first, int last,
                   bool least)
{
    int found = ABSENT;
    for (int step = first; step <= last; step++) {
        int pixel = seen(page, step_from(slope, from, step));
        if (pixel != ABSENT && (found == ABSENT || (least ? pixel < found : pixel > found)))
            found = pixel;
    }
    return found;
}

/* Erosion looks from x-o on, dilation from x-(L-1-o) on. */
static void pass(int *page, struct order order, bool least)
{
    static int before[PIXELS];
    int origin = (order.length - 1) / 2, first = least ? -origin : origin - (order.length - 1);
    memcpy(before, page, sizeof before);
    for (int at = 0; at < PIXELS; at++) {
        struct spot from = {at % SIDE_ACROSS, at / SIDE_ACROSS};
        if (before[at] != ABSENT)
            page[at] = extreme(before, order.slope, from, first, first + order.length - 1, least);
    }
}

static void hide_boxes(int *pixels, const struct page *page, int boxes)
{
    for (int box = 0; box < boxes; box++) {
        struct spot corner = box_corner(page, box);
        for (int row = corner.row; row < corner.row + BOX_HEIGHT; row++)
            for (int column = corner.column; column < corner.column + BOX_WIDTH; column++)
                pixels[row * SIDE_ACROSS + column] = ABSENT;
    }
}

void check_small_page(struct order order)
{
    static int wanted[PIXELS];
    static uint8_t given[PIXELS];
    struct page page = blank_page(SIDE_ACROSS, SIDE_DOWN);
    draw_noise(&page);
    for (int at = 0; at < PIXELS; at++)
        wanted[at] = page.pixels[at];
    hide_boxes(wanted, &page, order.boxes);
    pass(wanted, order, true);
    if (order.operation == OPEN)
        pass(wanted, order, false);

    sotrugla.take(&page);
    sotrugla.filter(order);
    sotrugla.give(given);
    for (int at = 0; at < PIXELS; at++)
        if (given[at] != (wanted[at] == ABSENT ? WHITE : wanted[at])) {
            fprintf(stderr, "wrong pixel at %d, %d: slope (%d,%d), L %d, %d boxes\n",
                    at % SIDE_ACROSS, at / SIDE_ACROSS, order.slope.dx, order.slope.dy, order.length,
                    order.boxes);
            exit(1);
        }
    leave_page(&page);
}

size_t count_differences(const struct program *one, const struct program *other, size_t pixels)
{
    uint8_t *first = room(pixels), *second = room(pixels);
    size_t differences = 0;
    one->give(first), other->give(second);
    for (size_t at = 0; at < pixels; at++)
        differences += first[at] != second[at];
    leave(first, pixels), leave(second, pixels);
    return differences;
}
