/* Closes the page of a raw Netpbm grey file (P5) along its rows, one box of it hidden: the file is standard
 * input, the closed page as another such file standard output. A refusal goes to standard error as its
 * number, place and sentence, and the exit status is then 1. */
#include <inttypes.h>
#include <stdio.h>
#include <stdlib.h>

#include "sotrugla.h"

struct buffer {
    uint8_t *bytes;
    size_t length;
};

static void fail(const char *why)
{
    fprintf(stderr, "%s\n", why);
    exit(2);
}

static void resize(struct buffer *buffer, size_t length)
{
    buffer->bytes = realloc(buffer->bytes, length ? length : 1);
    buffer->length = length;
    if (!buffer->bytes)
        fail("out of memory");
}

/* All of standard input, in a buffer just as long: an access behind it is one that valgrind sees. */
static struct buffer taken(void)
{
    struct buffer file = {0};
    size_t length = 0;
    do {
        resize(&file, 2 * length + 4096);
        length += fread(file.bytes + length, 1, file.length - length, stdin);
    } while (length == file.length);
    if (ferror(stdin))
        fail("bad input");
    resize(&file, length);
    return file;
}

/* Close along rows with a segment of 5 pixels; hide two pixels, from column 6 of row 3 on. */
static size_t put_ticket(uint8_t *bytes, size_t length)
{
    struct sotrugla_ticket ticket = sotrugla_centred(SOTRUGLA_CLOSE, SOTRUGLA_CONNECTED, 1, 0, 5);
    sotrugla_hide(&ticket, 6, 3, 2, 1);
    return sotrugla_put_ticket(&ticket, bytes, length);
}

int main(void)
{
    uint8_t ticket[SOTRUGLA_TICKET_BYTES];
    size_t ticket_length = put_ticket(ticket, sizeof ticket);
    struct buffer file = taken(), output = {0}, scratch = {0};
    struct sotrugla_pgm shown = sotrugla_read_pgm(file.bytes, file.length);
    resize(&output, SOTRUGLA_PGM_HEADER + shown.width * shown.height);
    resize(&scratch, sotrugla_scratch_needed(shown.width, shown.height));

    struct sotrugla_written answer =
        sotrugla_run_pgm(ticket, ticket_length, file.bytes, file.length, output.bytes,
                         output.length, scratch.bytes, scratch.length);
    if (answer.refusal)
        fprintf(stderr, "refused %" PRIu64 " at %" PRIu64 ": %s\n", answer.refusal, answer.place,
                sotrugla_file_sentence(answer.refusal, ticket, ticket_length));
    else if (fwrite(output.bytes, 1, answer.length, stdout) != answer.length || fflush(stdout))
        fail("bad output");
    free(file.bytes), free(output.bytes), free(scratch.bytes);
    return answer.refusal ? 1 : 0;
}
