/* Filters one page in the middle of a tray and prints what the page program prints for it: `done W`
 * and the rows, or `refused N at P`; a refusal's sentence goes to standard error.
 * Standard input is the page program's: width, height and ticket length, two bytes each, big-endian,
 * then the ticket, then the pixels row by row.
 *
 * The pixels under hidden boxes are overwritten first: no answer depends on them. With POISON defined,
 * valgrind reports every access to a byte of a tray outside the page, and every use of such a pixel. */
#include <inttypes.h>
#include <stdio.h>
#include <stdlib.h>
#include <string.h>

#include "sotrugla.h"

#ifdef POISON
#include <valgrind/memcheck.h>
#else
#define VALGRIND_MAKE_MEM_NOACCESS(bytes, length) ((void)0)
#define VALGRIND_MAKE_MEM_DEFINED(bytes, length) ((void)0)
#define VALGRIND_MAKE_MEM_UNDEFINED(bytes, length) ((void)0)
#endif

/* Where the page stands in both trays: neither at their start nor without padding. */
enum { OFFSET = 100, PADDING = 7, BEHIND = 100, NEIGHBOUR = 0xA5 };

static void fail(const char *why)
{
    fprintf(stderr, "%s\n", why);
    exit(2);
}

static uint8_t *room(size_t length)
{
    uint8_t *bytes = malloc(length ? length : 1);
    if (!bytes)
        fail("out of memory");
    return bytes;
}

static void take(uint8_t *bytes, size_t length)
{
    if (fread(bytes, 1, length, stdin) != length)
        fail("bad input");
}

static size_t number(const uint8_t *bytes)
{
    return 256 * (size_t)bytes[0] + bytes[1];
}

/* The tray's bytes that are no pixel's: before the page, between its rows and behind it. */
static void each_outside(uint8_t *tray, const struct sotrugla_job *job,
                         void (*visit)(uint8_t *, size_t))
{
    visit(tray, OFFSET);
    for (size_t row = 0; row < job->height; row++)
        visit(tray + OFFSET + row * job->source_stride + job->width, PADDING);
    visit(tray + OFFSET + job->height * job->source_stride, BEHIND);
}

static void fence(uint8_t *bytes, size_t length)
{
    memset(bytes, NEIGHBOUR, length);
    VALGRIND_MAKE_MEM_NOACCESS(bytes, length);
}

/* Without valgrind a write is still seen, here. */
static void see_kept(uint8_t *bytes, size_t length)
{
    VALGRIND_MAKE_MEM_DEFINED(bytes, length);
    for (size_t at = 0; at < length; at++)
        if (bytes[at] != NEIGHBOUR)
            fail("a byte outside the page was written");
}

/* Writes rubbish over the pixels under the boxes, as far as the page goes. */
static void forget_hidden(uint8_t *tray, const struct sotrugla_job *job)
{
    struct sotrugla_ticket ticket;
    sotrugla_read(job->ticket, job->ticket_length, &ticket);
    for (int64_t k = 0; k < ticket.count; k++) {
        size_t left = ticket.boxes[k].left, right = left + ticket.boxes[k].width;
        size_t top = ticket.boxes[k].top, bottom = top + ticket.boxes[k].height;
        for (size_t row = top; row < bottom && row < job->height; row++)
            for (size_t column = left; column < right && column < job->width; column++) {
                uint8_t *pixel = tray + OFFSET + row * job->source_stride + column;
                *pixel = NEIGHBOUR;
                VALGRIND_MAKE_MEM_UNDEFINED(pixel, 1);
            }
    }
}

/* "A hidden pixel comes out as 255 in every finished page." */
static void see_white(const struct sotrugla_job *job)
{
    for (size_t row = 0; row < job->height; row++)
        for (size_t column = 0; column < job->width; column++)
            if (sotrugla_is_hidden(job->ticket, job->ticket_length, column, row) &&
                job->output[OFFSET + row * job->output_stride + column] != 255)
                fail("a hidden pixel is not white");
}

static void print(const struct sotrugla_job *job, struct sotrugla_outcome answer)
{
    if (answer.refusal) {
        printf("refused %" PRIu64 " at %" PRIu64 "\n", answer.refusal, answer.place);
        fprintf(stderr, "%s\n", sotrugla_job_sentence(answer.refusal, job));
        return;
    }
    see_white(job);
    printf("done %" PRIu64 "\n", answer.work);
    for (size_t row = 0; row < job->height; row++)
        for (size_t column = 0; column < job->width; column++)
            printf("%d%c", job->output[OFFSET + row * job->output_stride + column],
                   column + 1 < job->width ? ' ' : '\n');
}

int main(void)
{
    uint8_t head[6];
    take(head, sizeof head);
    struct sotrugla_job job = {.width = number(head), .height = number(head + 2)};
    job.ticket_length = number(head + 4);
    job.source_offset = job.output_offset = OFFSET;
    job.source_stride = job.output_stride = job.width + PADDING;
    job.source_length = job.output_length = OFFSET + job.height * job.source_stride + BEHIND;
    job.scratch_length = sotrugla_scratch_needed(job.width, job.height);

    uint8_t *ticket = room(job.ticket_length), *source = room(job.source_length);
    job.ticket = ticket, job.source = source;
    job.output = room(job.output_length), job.scratch = room(job.scratch_length);
    take(ticket, job.ticket_length);
    for (size_t row = 0; row < job.height; row++)
        take(source + OFFSET + row * job.source_stride, job.width);
    forget_hidden(source, &job);
    each_outside(source, &job, fence);
    each_outside(job.output, &job, fence);

    print(&job, sotrugla_run_job(&job));

    each_outside(source, &job, see_kept);
    each_outside(job.output, &job, see_kept);
    free(ticket), free(source), free(job.output), free(job.scratch);
    return 0;
}
