/* Reasons of pixels, tested as C and as C++: the layout of their numbers, each kind of reason, that the source's grey
 * at from is what the job writes, every refusal with its place, and the sentences. Prints one line; the first wrong
 * thing is told instead, and the exit status is then 1. */
#include <assert.h>
#include <stddef.h>
#include <stdio.h>
#include <string.h>

#include "see.h"
#include "sotrugla.h"

static_assert(sizeof(struct sotrugla_reason) == 72, "nine numbers");
static_assert(offsetof(struct sotrugla_reason, refusal) == 0, "");
static_assert(offsetof(struct sotrugla_reason, place) == 8, "");
static_assert(offsetof(struct sotrugla_reason, kind) == 16, "");
static_assert(offsetof(struct sotrugla_reason, box) == 24, "");
static_assert(offsetof(struct sotrugla_reason, phase) == 32, "");
static_assert(offsetof(struct sotrugla_reason, through_column) == 40, "");
static_assert(offsetof(struct sotrugla_reason, through_row) == 48, "");
static_assert(offsetof(struct sotrugla_reason, from_column) == 56, "");
static_assert(offsetof(struct sotrugla_reason, from_row) == 64, "");
static_assert(SOTRUGLA_HIDDEN_BOX == 1 && SOTRUGLA_ONE_PASS == 3 && SOTRUGLA_TWO_PASSES == 4, "");

enum { WIDTH = 7, HEIGHT = 5, PIXELS = WIDTH * HEIGHT, OFFSET = 3, STRIDE = 9, TRAY = OFFSET + HEIGHT * STRIDE };

/* A page of few greys, so that several steps of a window have the result; its neighbours' bytes are 77. */
static uint8_t tray[TRAY];
static uint8_t ticket[SOTRUGLA_TICKET_BYTES];

static void put_page(void)
{
    memset(tray, 77, sizeof tray);
    for (int at = 0; at < PIXELS; at++)
        tray[OFFSET + at / WIDTH * STRIDE + at % WIDTH] = (uint8_t)(at * at * 31 % 257 % 5);
}

/* A job on the page, which has no output and no scratch but their lengths. */
static struct sotrugla_job job_of(const struct sotrugla_ticket *order)
{
    struct sotrugla_job job;
    memset(&job, 0, sizeof job);
    job.ticket = ticket, job.ticket_length = sotrugla_put_ticket(order, ticket, sizeof ticket);
    job.width = WIDTH, job.height = HEIGHT;
    job.source = tray, job.source_length = sizeof tray, job.source_offset = OFFSET, job.source_stride = STRIDE;
    job.output_length = PIXELS, job.output_stride = WIDTH;
    job.scratch_length = sotrugla_scratch_needed(WIDTH, HEIGHT);
    return job;
}

static struct sotrugla_ticket order_of(int operation, int line, int dx, int dy, int length)
{
    struct sotrugla_ticket order = sotrugla_centred(operation, line, dx, dy, length);
    SEE(sotrugla_hide(&order, 1, 1, 2, 1));
    SEE(sotrugla_hide(&order, 2, 1, 3, 3));
    return order;
}

/* Whether the numbers of a reason that is no refusal are these; behind the kind stand box, phase, through and from. */
static int is_reason(struct sotrugla_reason found, uint64_t kind, const uint64_t *numbers)
{
    const uint64_t wanted[] = {0,          0,          kind,       numbers[0], numbers[1],
                               numbers[2], numbers[3], numbers[4], numbers[5]};
    return memcmp(&found, wanted, sizeof wanted) == 0;
}

/* The row 9 1 5 of the law's cases, and 4 4 behind it, with a segment of two steps. Eroded it is 1 1 4 4 4. */
static void see_each_kind(void)
{
    const uint8_t row[] = {9, 1, 5, 4, 4};
    const uint64_t eroded[][6] = {{0, 0, 0, 0, 1, 0}, {0, 0, 1, 0, 1, 0}, {0, 0, 2, 0, 3, 0},
                                  {0, 0, 3, 0, 3, 0}, {0, 0, 4, 0, 4, 0}};
    const uint64_t opened[][6] = {{0, 0, 0, 0, 1, 0}, {0, 0, 0, 0, 1, 0}, {0, 0, 2, 0, 3, 0},
                                  {0, 0, 2, 0, 3, 0}, {0, 0, 3, 0, 3, 0}};
    const uint64_t second_box[] = {1, 0, 0, 0, 0, 0};
    struct sotrugla_ticket order = sotrugla_centred(SOTRUGLA_ERODE, SOTRUGLA_CONNECTED, 1, 0, 2);
    order.origin = 0;
    struct sotrugla_job job = job_of(&order);
    job.width = job.source_stride = job.output_stride = sizeof row, job.height = 1;
    job.source = row, job.source_length = sizeof row, job.source_offset = 0;
    for (size_t column = 0; column < sizeof row; column++)
        SEE(is_reason(sotrugla_why_job(&job, column, 0), SOTRUGLA_ONE_PASS, eroded[column]));
    order.operation = SOTRUGLA_OPEN;
    sotrugla_put_ticket(&order, ticket, sizeof ticket);
    for (size_t column = 0; column < sizeof row; column++)
        SEE(is_reason(sotrugla_why_job(&job, column, 0), SOTRUGLA_TWO_PASSES, opened[column]));
    SEE(sotrugla_hide(&order, 0, 0, 1, 1) && sotrugla_hide(&order, 2, 0, 2, 1) && sotrugla_hide(&order, 3, 0, 1, 1));
    job.ticket_length = sotrugla_put_ticket(&order, ticket, sizeof ticket);
    SEE(is_reason(sotrugla_why_job(&job, 3, 0), SOTRUGLA_HIDDEN_BOX, second_box));
}

static int is_hidden(size_t column, size_t row)
{
    return (column >= 1 && column < 3 && row == 1) || (column >= 2 && column < 5 && row >= 1 && row < 4);
}

/* Every pixel of the page has the grey that its reason names, by the job and as a file. */
static void see_results(const struct sotrugla_ticket *order)
{
    const uint8_t header[] = {'P', '5', ' ', '7', ' ', '5', ' ', '4', '\n'};
    uint8_t output[PIXELS], scratch[2 * PIXELS + 3 * WIDTH], file[sizeof header + PIXELS];
    struct sotrugla_job job = job_of(order);
    memcpy(file, header, sizeof header);
    for (size_t at = 0; at < PIXELS; at++)
        file[sizeof header + at] = tray[OFFSET + at / WIDTH * STRIDE + at % WIDTH];
    job.output = output, job.scratch = scratch;
    SEE(sotrugla_run_job(&job).refusal == 0);
    for (size_t at = 0; at < PIXELS; at++) {
        size_t column = at % WIDTH, row = at / WIDTH;
        struct sotrugla_reason reason = sotrugla_why_job(&job, column, row);
        struct sotrugla_reason other = sotrugla_why_pgm(ticket, job.ticket_length, file, sizeof file, column, row);
        SEE(memcmp(&reason, &other, sizeof reason) == 0);
        SEE(reason.refusal == 0 && reason.place == 0);
        SEE((reason.kind == SOTRUGLA_HIDDEN_BOX) == is_hidden(column, row));
        if (reason.kind == SOTRUGLA_HIDDEN_BOX) {
            SEE(reason.box == (row == 1 && column < 3 ? 0 : 1) && output[at] == 255);
            continue;
        }
        SEE(reason.phase == (uint64_t)order->phase);
        SEE(!is_hidden(reason.from_column, reason.from_row) && !is_hidden(reason.through_column, reason.through_row));
        SEE(output[at] == tray[OFFSET + reason.from_row * STRIDE + reason.from_column]);
    }
}

static void see_pages(void)
{
    const int vectors[][2] = {{1, 0}, {0, 1}, {1, 1}, {2, -1}, {-1, 2}, {5, 3}, {3, -2}};
    for (int operation = SOTRUGLA_ERODE; operation <= SOTRUGLA_CLOSE; operation++)
        for (size_t k = 0; k < sizeof vectors / sizeof *vectors; k++) {
            struct sotrugla_ticket order = order_of(operation, SOTRUGLA_CONNECTED, vectors[k][0], vectors[k][1], 3);
            see_results(&order);
            order.phase = k >= 3;
            see_results(&order);
            order.phase = 0, order.line = SOTRUGLA_PERIODIC, order.length = 8192;
            see_results(&order);
        }
}

static void see_refused(const struct sotrugla_job *job, size_t column, size_t row, uint64_t refusal, uint64_t place)
{
    char text[SOTRUGLA_SENTENCE_BYTES];
    struct sotrugla_reason reason = sotrugla_why_job(job, column, row), wanted;
    memset(&wanted, 0, sizeof wanted);
    wanted.refusal = refusal, wanted.place = place;
    SEE(memcmp(&reason, &wanted, sizeof reason) == 0);
    SEE((size_t)sotrugla_job_reason(&reason, job, column, row, text, sizeof text) == strlen(text));
    SEE(same(text, sotrugla_job_sentence(refusal, job)));
}

/* Each job has one fault more than the one before it was to have: the first in the order of refusals is told. */
static void see_refusals(void)
{
    struct sotrugla_ticket order = order_of(SOTRUGLA_CLOSE, SOTRUGLA_CONNECTED, 1, 0, 3);
    struct sotrugla_job job = job_of(&order);
    see_refused(&job, WIDTH, 0, SOTRUGLA_PIXEL_OFF_PAGE, 0);
    see_refused(&job, 0, HEIGHT, SOTRUGLA_PIXEL_OFF_PAGE, 0);
    see_refused(&job, SIZE_MAX, SIZE_MAX, SOTRUGLA_PIXEL_OFF_PAGE, 0);
    SEE(sotrugla_hide(&order, WIDTH - 1, 0, 2, 1));
    job.ticket_length = sotrugla_put_ticket(&order, ticket, sizeof ticket);
    see_refused(&job, WIDTH, 0, SOTRUGLA_BAD_BOX, 2);
    job.scratch_length--;
    see_refused(&job, WIDTH, 0, SOTRUGLA_SCRATCH_TOO_SHORT, 0);
    job.output_length--;
    see_refused(&job, WIDTH, 0, SOTRUGLA_OUTPUT_TOO_SHORT, 0);
    job.source_length = OFFSET + (HEIGHT - 1) * STRIDE + WIDTH - 1;
    see_refused(&job, WIDTH, 0, SOTRUGLA_SOURCE_TOO_SHORT, 0);
    job.output_stride--;
    see_refused(&job, WIDTH, 0, SOTRUGLA_BAD_SIDES, 0);
    job.ticket_length = 0;
    see_refused(&job, WIDTH, 0, SOTRUGLA_TICKET_ENDS, 0);
}

static void see_refused_file(size_t ticket_length, const char *file, uint64_t refusal, uint64_t place)
{
    char text[SOTRUGLA_SENTENCE_BYTES];
    const uint8_t *bytes = (const uint8_t *)file;
    struct sotrugla_reason reason = sotrugla_why_pgm(ticket, ticket_length, bytes, strlen(file), 3, 0);
    SEE(reason.refusal == refusal && reason.place == place && reason.kind == 0);
    sotrugla_file_reason(&reason, ticket, ticket_length, bytes, strlen(file), 3, 0, text, sizeof text);
    SEE(same(text, sotrugla_file_sentence(refusal, ticket, ticket_length)));
}

static void see_refused_files(void)
{
    struct sotrugla_ticket order = sotrugla_centred(SOTRUGLA_OPEN, SOTRUGLA_CONNECTED, 1, 0, 2);
    size_t length = sotrugla_put_ticket(&order, ticket, sizeof ticket);
    see_refused_file(0, "P6", SOTRUGLA_TICKET_ENDS, 0);
    see_refused_file(length, "P6 3 1 9\nabc", SOTRUGLA_BAD_HEADER, 1);
    see_refused_file(length, "P5 3 1 256\nabc", SOTRUGLA_BAD_MAXIMUM, 7);
    see_refused_file(length, "P5 3 1 98\nabc", SOTRUGLA_BAD_PIXEL, 12);
    see_refused_file(length, "P5 0 1 9\n", SOTRUGLA_BAD_SIDES, 0);
    see_refused_file(length, "P5 3 1 99\nabc", SOTRUGLA_PIXEL_OFF_PAGE, 0);
    SEE(sotrugla_hide(&order, 3, 0, 1, 1));
    length = sotrugla_put_ticket(&order, ticket, sizeof ticket);
    see_refused_file(length, "P5 3 1 99\nabc", SOTRUGLA_BAD_BOX, 0);
}

/* The sentence of a pixel of the row 97 98 99 98, as a job and as a file. */
static void see_sentence(const struct sotrugla_ticket *order, size_t column, const char *wanted)
{
    const uint8_t file[] = "P5 4 1 99\nabcb";
    size_t size = sizeof file - 1;
    char text[SOTRUGLA_SENTENCE_BYTES], cut[20];
    volatile size_t room = sizeof cut; /* A compiler that knew it would tell that the text is cut. */
    struct sotrugla_job job = job_of(order);
    job.width = job.source_stride = job.output_stride = 4, job.height = 1;
    job.source = file, job.source_length = size, job.source_offset = 10;
    struct sotrugla_reason reason = sotrugla_why_job(&job, column, 0);
    SEE(sotrugla_job_reason(&reason, &job, column, 0, text, sizeof text) == (int)strlen(wanted));
    SEE(same(text, wanted));
    SEE(sotrugla_job_reason(&reason, &job, column, 0, cut, room) == (int)strlen(wanted));
    SEE(strlen(cut) == sizeof cut - 1 && memcmp(cut, wanted, sizeof cut - 1) == 0);
    SEE(sotrugla_job_reason(&reason, &job, column, 0, NULL, 0) == (int)strlen(wanted));
    reason = sotrugla_why_pgm(ticket, job.ticket_length, file, size, column, 0);
    sotrugla_file_reason(&reason, ticket, job.ticket_length, file, size, column, 0, text, sizeof text);
    SEE(same(text, wanted));
}

static void see_sentences(void)
{
    struct sotrugla_ticket order = sotrugla_centred(SOTRUGLA_ERODE, SOTRUGLA_CONNECTED, 1, 0, 2);
    see_sentence(&order, 2, "column 2, row 0 is 98 because column 1, row 0 is 98");
    see_sentence(&order, 3, "column 3, row 0 is 98 because it is 98 itself");
    order.operation = SOTRUGLA_OPEN;
    see_sentence(&order, 2, "column 2, row 0 is 98 because column 1, row 0 is 98, by way of column 2, row 0");
    see_sentence(&order, 3, "column 3, row 0 is 98 because it is 98 itself");
    order.origin = 0;
    see_sentence(&order, 3, "column 3, row 0 is 98 because it is 98 itself, by way of column 2, row 0");
    see_sentence(&order, 2, "column 2, row 0 is 98 because column 1, row 0 is 98");
    SEE(sotrugla_hide(&order, 0, 0, 1, 1) && sotrugla_hide(&order, 2, 0, 2, 1));
    see_sentence(&order, 3,
                 "column 3, row 0 is white because it is hidden by box 1: left 2, top 0, width 2, height 1");
}

int main(void)
{
    put_page();
    see_each_kind();
    see_pages();
    see_refusals();
    see_refused_files();
    see_sentences();
    printf("reasons of pixels: %d checks\n", checks);
    return 0;
}
