/* Says of each pixel of a page why it comes out so: a line for each, row by row, or `refused N at P`; a refusal's
 * sentence goes to standard error. Standard input is the page program's: width, height and ticket length, two bytes
 * each, big-endian, then the ticket, then the pixels row by row.
 *
 * With POISON defined, valgrind reports every use of a pixel under a hidden box: no reason depends on one. */
#include <inttypes.h>
#include <stdio.h>
#include <stdlib.h>

#include "sotrugla.h"

#ifdef POISON
#include <valgrind/memcheck.h>
#else
#define VALGRIND_MAKE_MEM_UNDEFINED(bytes, length) ((void)0)
#endif

static void fail(const char *why)
{
    fprintf(stderr, "%s\n", why);
    exit(2);
}

/* So many bytes of standard input, in a buffer just as long: an access behind it is one that valgrind sees. */
static uint8_t *taken(size_t length)
{
    uint8_t *bytes = malloc(length ? length : 1);
    if (!bytes)
        fail("out of memory");
    if (fread(bytes, 1, length, stdin) != length)
        fail("bad input");
    return bytes;
}

static size_t number(const uint8_t *bytes)
{
    return 256 * (size_t)bytes[0] + bytes[1];
}

static void forget_hidden(const struct sotrugla_job *job)
{
    for (size_t at = 0; at < job->source_length; at++)
        if (sotrugla_is_hidden(job->ticket, job->ticket_length, at % job->width, at / job->width))
            VALGRIND_MAKE_MEM_UNDEFINED(job->source + at, 1);
}

/* Whether the job is not refused. */
static int tell(const struct sotrugla_job *job, size_t column, size_t row)
{
    char text[SOTRUGLA_SENTENCE_BYTES];
    struct sotrugla_reason reason = sotrugla_why_job(job, column, row);
    sotrugla_job_reason(&reason, job, column, row, text, sizeof text);
    if (reason.refusal) {
        printf("refused %" PRIu64 " at %" PRIu64 "\n", reason.refusal, reason.place);
        fprintf(stderr, "%s\n", text);
        return 0;
    }
    printf("%s\n", text);
    return 1;
}

int main(void)
{
    uint8_t *head = taken(6);
    struct sotrugla_job job = {.width = number(head), .height = number(head + 2)};
    uint8_t *ticket = taken(job.ticket_length = number(head + 4));
    uint8_t *pixels = taken(job.source_length = job.width * job.height);
    job.ticket = ticket, job.source = pixels;
    job.source_stride = job.output_stride = job.width;
    job.output_length = job.source_length;
    job.scratch_length = sotrugla_scratch_needed(job.width, job.height);
    forget_hidden(&job);
    /* A refused job is refused for its first pixel, even where it has none. */
    if (tell(&job, 0, 0))
        for (size_t at = 1; at < job.source_length; at++)
            tell(&job, at % job.width, at / job.width);
    free(head), free(ticket), free(pixels);
    return 0;
}
