#include "reading.h"

#include <stdio.h>
#include <string.h>

#include "sotrugla.h"
#include "timing.h"

/* Below 255, so that every pixel must be looked at, and none is above it, so that none ends the reading. */
enum { MAXIMUM = 254, LENGTH = 51 };

struct file {
    uint8_t *bytes;
    size_t length;
    struct page page; /* within the bytes */
};

static struct file drawn_file(const struct plan *plan)
{
    char header[SOTRUGLA_PGM_HEADER + 1];
    size_t start = (size_t)snprintf(header, sizeof header, "P5\n%zu\n%zu\n%d\n", plan->width, plan->height,
                                    MAXIMUM);
    struct file file = {.length = start + plan->width * plan->height};
    file.bytes = room(file.length);
    memcpy(file.bytes, header, start);
    file.page = (struct page){plan->width, plan->height, file.bytes + start};
    draw_text(&file.page);
    for (size_t at = start; at < file.length; at++)
        if (file.bytes[at] > MAXIMUM)
            file.bytes[at] = MAXIMUM;
    return file;
}

static double read_once(const struct file *file)
{
    double began = cpu_seconds();
    struct sotrugla_pgm shown = sotrugla_read_pgm(file->bytes, file->length);
    double seconds = cpu_seconds() - began;
    if (shown.refusal || shown.maximum != MAXIMUM || shown.start + page_bytes(&file->page) != file->length) {
        fprintf(stderr, "read wrongly: %s\n", sotrugla_sentence(shown.refusal));
        exit(1);
    }
    return seconds;
}

/* Each slope's readings stand beside its openings: both find the same page, in the same state of the machine. */
static void time_round(const struct plan *plan, const struct file *file, double *readings, struct timing *openings)
{
    sotrugla.take(&file->page);
    for (size_t slope = 0; slope < plan->slope_count; slope++) {
        for (int call = 0; call < plan->calls; call++)
            readings[slope] = least(readings[slope], read_once(file));
        time_calls(&openings[slope], &file->page, plan->calls);
    }
}

void measure_reading(const struct plan *plan)
{
    double readings[SLOPES];
    struct timing openings[SLOPES];
    for (size_t slope = 0; slope < plan->slope_count; slope++) {
        readings[slope] = 1e9;
        openings[slope] = not_timed(&sotrugla, (struct order){OPEN, plan->slopes[slope], LENGTH, 0});
    }
    struct file file = drawn_file(plan);
    for (int round = 0; round < plan->rounds; round++) {
        struct file elsewhere = drawn_file(plan); /* a place of its own in memory for each round */
        leave(file.bytes, file.length);
        file = elsewhere;
        time_round(plan, &file, readings, openings);
    }
    for (size_t slope = 0; slope < plan->slope_count; slope++)
        printf("reading\t%s\ttext\t%d\t%d\t%d\t%zu\t%.9f\t%.9f\n", plan->page, plan->slopes[slope].dx,
               plan->slopes[slope].dy, LENGTH, page_bytes(&file.page), readings[slope], openings[slope].best);
    leave(file.bytes, file.length);
}
