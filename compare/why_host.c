// Calls the library for each question about a pixel on standard input and prints one line a question: the nine numbers
// of its reason.

#include "fenced.h"

#include <inttypes.h>

#include "sotrugla.h"

// A question on standard input is these numbers, the lowest byte first as x86-64 keeps them, and then the bytes of
// ticket and source. Output and scratch are not lent.
struct question {
    uint64_t width, height, source_offset, source_stride, output_offset, output_stride;
    uint64_t ticket_length, source_length, output_length, scratch_length, column, row;
};

// The line leaves at once, so that the lines before a crash are seen.
static void print_reason(struct sotrugla_reason reason)
{
    printf("%" PRIu64 " %" PRIu64 " %" PRIu64, reason.refusal, reason.place, reason.kind);
    printf(" %" PRIu64 " %" PRIu64, reason.box, reason.phase);
    printf(" %" PRIu64 " %" PRIu64, reason.through_column, reason.through_row);
    printf(" %" PRIu64 " %" PRIu64 "\n", reason.from_column, reason.from_row);
    fflush(stdout);
}

static void answer(const struct question *question)
{
    struct fenced ticket = fence(question->ticket_length);
    struct fenced source = fence(question->source_length);
    print_reason(sotrugla_why(ticket.bytes, ticket.length, question->width, question->height,
                              question->source_offset, question->source_stride,
                              question->output_offset, question->output_stride, source.bytes,
                              source.length, question->output_length, question->scratch_length,
                              question->column, question->row));
    take_down(ticket);
    take_down(source);
}

int main(void)
{
    struct question question;
    while (fread(&question, sizeof question, 1, stdin) == 1)
        answer(&question);
    return 0;
}
