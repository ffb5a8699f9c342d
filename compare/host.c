// Calls the library for each job on standard input and prints one line a job: refusal, place and
// work, then what was wrongly changed, then the whole output tray and the whole scratch in hex.

#include <inttypes.h>

#include "lent.h"
#include "sotrugla.h"

// A job on standard input is these numbers, the lowest byte first as x86-64 keeps them, and then
// the bytes of the four buffers.
struct job {
    uint64_t width, height, source_offset, source_stride, output_offset, output_stride;
    uint64_t ticket_length, source_length, output_length, scratch_length;
};

static void run(const struct job *job)
{
    struct lent ticket = lend("ticket", job->ticket_length);
    struct lent source = lend("source", job->source_length);
    struct lent output = lend("output", job->output_length);
    struct lent scratch = lend("scratch", job->scratch_length);
    struct sotrugla_outcome answer = sotrugla_run(
        ticket.bytes, ticket.length, job->width, job->height, job->source_offset,
        job->source_stride, job->output_offset, job->output_stride, source.bytes, source.length,
        output.bytes, output.length, scratch.bytes, scratch.length);
    printf("%" PRIu64 " %" PRIu64 " %" PRIu64, answer.refusal, answer.place, answer.work);
    end_line(ticket, source, output, scratch);
}

int main(void)
{
    struct job job;
    while (fread(&job, sizeof job, 1, stdin) == 1)
        run(&job);
    return 0;
}
