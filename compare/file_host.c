// Calls the library for each job on a P5 file on standard input and prints one line a job: what is
// read of the file alone, and refusal, place, work and length of the job; then what was wrongly
// changed, then the whole output and the whole scratch in hex.

#include <inttypes.h>

#include "lent.h"
#include "sotrugla.h"

// A job on standard input is these numbers, the lowest byte first as x86-64 keeps them, and then
// the bytes of the four buffers.
struct job {
    uint64_t ticket_length, file_length, output_length, scratch_length;
};

static void print_numbers(const char *name, int count, const uint64_t *numbers)
{
    printf("%s", name);
    for (int at = 0; at < count; at++)
        printf(" %" PRIu64, numbers[at]);
}

static void run(const struct job *job)
{
    struct lent ticket = lend("ticket", job->ticket_length);
    struct lent file = lend("file", job->file_length);
    struct lent output = lend("output", job->output_length);
    struct lent scratch = lend("scratch", job->scratch_length);
    struct sotrugla_pgm read = sotrugla_read_pgm(file.bytes, file.length);
    struct sotrugla_written answer =
        sotrugla_run_pgm(ticket.bytes, ticket.length, file.bytes, file.length, output.bytes,
                         output.length, scratch.bytes, scratch.length);
    print_numbers("read", 6, (uint64_t[]){read.refusal, read.place, read.width, read.height,
                                          read.maximum, read.start});
    print_numbers(" run", 4, (uint64_t[]){answer.refusal, answer.place, answer.work,
                                          answer.length});
    end_line(ticket, file, output, scratch);
}

int main(void)
{
    struct job job;
    while (fread(&job, sizeof job, 1, stdin) == 1)
        run(&job);
    return 0;
}
