#include "drawing.h"

#include <stdio.h>

#include "sotrugla.h"

enum { LONGEST = 8192, TIMES = 2000 };

static double question(struct slope slope)
{
    static uint8_t bytes[SOTRUGLA_TICKET_BYTES], pixel, output, scratch[8];
    struct sotrugla_ticket ticket = sotrugla_centred(SOTRUGLA_ERODE, SOTRUGLA_CONNECTED, slope.dx, slope.dy, 1);
    struct sotrugla_job job = {.ticket = bytes, .ticket_length = sotrugla_put_ticket(&ticket, bytes, sizeof bytes),
        .width = 1, .height = 1, .source = &pixel, .source_length = 1, .source_stride = 1,
        .output = &output, .output_length = 1, .output_stride = 1,
        .scratch = scratch, .scratch_length = sizeof scratch};
    double best = 1e9;
    for (int time = 0; time < TIMES; time++) {
        double began = cpu_seconds();
        struct sotrugla_reason reason = sotrugla_why_job(&job, 0, 0);
        best = least(best, cpu_seconds() - began);
        if (reason.refusal) {
            fprintf(stderr, "no reason: %s\n", sotrugla_sentence(reason.refusal));
            exit(1);
        }
    }
    return best;
}

static double divided(struct slope slope, size_t *table)
{
    double best = 1e9;
    for (int time = 0; time < TIMES; time++) {
        double began = cpu_seconds();
        for (int at = 0; at < LONGEST; at++)
            table[at] = (size_t)abs(line_shift(slope, at));
        best = least(best, cpu_seconds() - began);
    }
    return best;
}

void measure_drawing(const struct plan *plan)
{
    size_t *table = (size_t *)room(LONGEST * sizeof *table);
    for (size_t at = 0; at < plan->slope_count; at++) {
        struct slope slope = plan->slopes[at];
        printf("drawing\t%d\t%d\t%.9f\t%.9f\n", slope.dx, slope.dy, question(slope), divided(slope, table));
    }
    leave((uint8_t *)table, LONGEST * sizeof *table);
}
