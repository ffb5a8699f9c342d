#include "why.h"

#include <stdio.h>

#include "sotrugla.h"
#include "timing.h"

/* A question takes as long as its search: asked of many pixels, each a few times, of which the best counts. */
enum { USUAL_LENGTH = 51, LONGEST = 8192, ASKED = 200, ASKED_OF_A_ROW = 5, TIMES = 5, BOXES = 64 };

struct question {
    const char *page, *drawing, *name; /* the operation's name */
    int64_t operation;
    struct slope slope;
    int length, boxes, asked;
};

/* One pixel each, so that the boxes cost their tests and hide next to nothing. */
static struct sotrugla_ticket ordered(const struct question *question, const struct page *page)
{
    struct sotrugla_ticket ticket = sotrugla_centred(question->operation, SOTRUGLA_CONNECTED, question->slope.dx,
                                                     question->slope.dy, question->length);
    for (int64_t box = 0; box < question->boxes; box++)
        sotrugla_hide(&ticket, (int64_t)page->width - 1 - box, 0, 1, 1);
    return ticket;
}

static double ask_once(const struct sotrugla_job *job, size_t column, size_t row)
{
    double began = cpu_seconds();
    struct sotrugla_reason reason = sotrugla_why_job(job, column, row);
    double seconds = cpu_seconds() - began;
    if (reason.refusal || !reason.kind) {
        fprintf(stderr, "no reason: %s\n", sotrugla_sentence(reason.refusal));
        exit(1);
    }
    return seconds;
}

/* Pixels from one end of the page to the other. */
static double longest_answer(const struct question *question, const struct sotrugla_job *job)
{
    double longest = 0;
    for (int at = 0; at < question->asked; at++) {
        double best = 1e9;
        size_t column = (job->width - 1) * (size_t)at / (size_t)(question->asked - 1);
        size_t row = (job->height - 1) * (size_t)at / (size_t)(question->asked - 1);
        for (int time = 0; time < TIMES; time++)
            best = least(best, ask_once(job, column, row));
        longest = best > longest ? best : longest;
    }
    return longest;
}

static double run_once(const struct sotrugla_job *job)
{
    double best = 1e9;
    for (int time = 0; time < TIMES; time++) {
        double began = cpu_seconds();
        if (sotrugla_run_job(job).refusal)
            exit(1);
        best = least(best, cpu_seconds() - began);
    }
    return best;
}

static void measure_question(const struct question *question, struct page *page)
{
    static uint8_t bytes[SOTRUGLA_TICKET_BYTES];
    struct sotrugla_ticket ticket = ordered(question, page);
    struct page output = blank_page(page->width, page->height);
    size_t scratch_length = sotrugla_scratch_needed(page->width, page->height);
    uint8_t *scratch = room(scratch_length);
    struct sotrugla_job job = {.ticket = bytes, .ticket_length = sotrugla_put_ticket(&ticket, bytes, sizeof bytes),
        .width = page->width, .height = page->height,
        .source = page->pixels, .source_length = page_bytes(page), .source_stride = page->width,
        .output = output.pixels, .output_length = page_bytes(page), .output_stride = page->width,
        .scratch = scratch, .scratch_length = scratch_length};
    printf("why\t%s\t%s\t%s\t%d\t%d\t%d\t%d\t%d\t%.9f\t%.9f\n", question->page, question->drawing, question->name,
           question->slope.dx, question->slope.dy, question->length, question->boxes, question->asked,
           longest_answer(question, &job), run_once(&job));
    leave(scratch, scratch_length);
    leave_page(&output);
}

/* A row that darkens, or brightens, from end to end: the search for the first hit goes as far as it can. */
static void draw_ramp(struct page *page, bool darkens)
{
    for (size_t at = 0; at < page->width; at++)
        page->pixels[at] = (uint8_t)(WHITE * (darkens ? page->width - 1 - at : at) / (page->width - 1));
}

static void measure_row(const char *drawing, struct page *row)
{
    struct question question = {"8192 by 1", drawing, "opening", SOTRUGLA_OPEN, {1, 0}, LONGEST, 0, ASKED_OF_A_ROW};
    measure_question(&question, row);
    question.boxes = BOXES;
    measure_question(&question, row);
    question.name = "closing", question.operation = SOTRUGLA_CLOSE;
    measure_question(&question, row);
}

void measure_why(const struct plan *plan)
{
    struct page page = blank_page(plan->width, plan->height), row = blank_page(LONGEST, 1);
    draw_text(&page);
    for (size_t slope = 0; slope < plan->slope_count; slope++)
        for (int boxes = 0; boxes <= BOXES; boxes += BOXES)
            measure_question(&(struct question){plan->page, "text", "opening", SOTRUGLA_OPEN, plan->slopes[slope],
                USUAL_LENGTH, boxes, ASKED}, &page);
    draw_noise(&row), measure_row("noise", &row);
    draw_ramp(&row, true), measure_row("darkening", &row);
    draw_ramp(&row, false), measure_row("brightening", &row);
    leave_page(&row);
    leave_page(&page);
}
