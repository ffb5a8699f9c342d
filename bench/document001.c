#include "document001.h"

#include <math.h>
#include <stdio.h>
#include <string.h>

#include "program.h"

enum { WIDTH = 256, HEIGHT = 240, LENGTH = 150, ORIGIN = (LENGTH - 1) / 2 };

/* The page stands in a buffer with a border as wide as the segment is long, filled with what changes no
 * result. The document leaves that buffering out of its times, and so does this. */
enum { BUFFER_WIDTH = WIDTH + 2 * LENGTH, BUFFER_HEIGHT = HEIGHT + 2 * LENGTH };

static uint8_t buffer[BUFFER_HEIGHT * BUFFER_WIDTH], result[HEIGHT * WIDTH];
static ptrdiff_t segment[LENGTH];

static const uint8_t *buffered(int row)
{
    return buffer + (LENGTH + row) * BUFFER_WIDTH + LENGTH;
}

static void fill_buffer(const struct page *page, enum operation operation)
{
    memset(buffer, operation == ERODE ? 1 : 0, sizeof buffer);
    for (int row = 0; row < HEIGHT; row++)
        memcpy(buffer + (LENGTH + row) * BUFFER_WIDTH + LENGTH, page->pixels + row * WIDTH, WIDTH);
}

/* The segment's pixels as distances in the buffer; a dilation looks through it reflected. */
static void lay_segment(struct slope slope, enum operation operation)
{
    struct spot corner = {0, 0}, origin = step_from(slope, corner, ORIGIN);
    for (int step = 0; step < LENGTH; step++) {
        struct spot pixel = step_from(slope, corner, step);
        int distance = (pixel.row - origin.row) * BUFFER_WIDTH + pixel.column - origin.column;
        segment[step] = operation == ERODE ? distance : -distance;
    }
}

/* Each pixel by itself: the intersection, or the union, over its translated segment. */
static void conventional_by_pixel(enum operation operation)
{
    for (int row = 0; row < HEIGHT; row++)
        for (int column = 0; column < WIDTH; column++) {
            const uint8_t *here = buffered(row) + column;
            uint8_t found = *here;
            if (operation == ERODE)
                for (int step = 0; step < LENGTH; step++)
                    found &= here[segment[step]];
            else
                for (int step = 0; step < LENGTH; step++)
                    found |= here[segment[step]];
            result[row * WIDTH + column] = found;
        }
}

/* All translates of the page, one after the other: the compiler does many pixels at once. */
static void conventional_by_page(enum operation operation)
{
    memset(result, operation == ERODE ? 1 : 0, sizeof result);
    for (int step = 0; step < LENGTH; step++)
        for (int row = 0; row < HEIGHT; row++) {
            const uint8_t *moved = buffered(row) + segment[step];
            uint8_t *out = result + row * WIDTH;
            if (operation == ERODE)
                for (int column = 0; column < WIDTH; column++)
                    out[column] &= moved[column];
            else
                for (int column = 0; column < WIDTH; column++)
                    out[column] |= moved[column];
        }
}

static double timed(void (*conventional)(enum operation), enum operation operation)
{
    double began = cpu_seconds();
    conventional(operation);
    return cpu_seconds() - began;
}

static int common_divisor(int one, int other)
{
    return other ? common_divisor(other, one % other) : abs(one);
}

/* The vector that is closest to an angle, as tickets allow it. */
static struct slope slope_at(int degrees)
{
    double angle = degrees * acos(-1) / 180;
    int dx = (int)lround(255 * cos(angle)), dy = (int)lround(255 * sin(angle));
    int sign = abs(dx) >= abs(dy) && dx < 0 ? -1 : 1, divisor = sign * common_divisor(dx, dy);
    return (struct slope){dx / divisor, dy / divisor};
}

static void see_same(struct order order)
{
    static uint8_t ours[HEIGHT * WIDTH];
    sotrugla.give(ours);
    if (has_one_shape(order.slope) && memcmp(ours, result, sizeof ours)) {
        fprintf(stderr, "the conventional method gives another page\n");
        exit(1);
    }
}

static void time_orientation(const struct page *page, struct order order, int degrees, int rounds)
{
    double ours = 1e9, by_pixel = 1e9, by_page = 1e9;
    lay_segment(order.slope, order.operation);
    for (int round = 0; round < rounds; round++) {
        for (int call = 0; call < 5; call++)
            ours = least(ours, sotrugla.filter(order));
        by_page = least(by_page, timed(conventional_by_page, order.operation));
        see_same(order);
        by_pixel = least(by_pixel, timed(conventional_by_pixel, order.operation));
        see_same(order);
    }
    printf("document001\t%s\t%d\t%zu\t%.9f\t%.9f\t%.9f\n", order.operation == ERODE ? "erosion" : "dilation",
           degrees, page_bytes(page), ours, by_pixel, by_page);
}

void repeat_document001(int degrees, int rounds)
{
    struct page page = blank_page(WIDTH, HEIGHT);
    draw_salt(&page);
    sotrugla.take(&page);
    for (enum operation operation = ERODE; operation <= DILATE; operation++) {
        fill_buffer(&page, operation);
        for (int angle = 0; angle < 180; angle += degrees)
            time_orientation(&page, (struct order){operation, slope_at(angle), LENGTH, 0}, angle, rounds);
    }
    leave_page(&page);
}
