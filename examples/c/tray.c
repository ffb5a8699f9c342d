/* Filters the pages of a tray in one call and prints a line for each job of the list: `done W` and the
 * pixels row by row, or `refused N at P`; a refusal's sentence goes to standard error. A list that is refused
 * has one such line. Standard input is inputs of the page program, one behind the other: each is width, height
 * and ticket length, two bytes each, big-endian, then the ticket, then the pixels row by row. */
#include <inttypes.h>
#include <stdio.h>
#include <stdlib.h>

#include "sotrugla.h"

struct buffer {
    uint8_t *bytes;
    size_t length;
};

static void see(int right, const char *why)
{
    if (!right) {
        fprintf(stderr, "%s\n", why);
        exit(2);
    }
}

/* Room for just so many bytes, the first of which are those: an access behind it is one that valgrind sees. */
static uint8_t *room(uint8_t *bytes, size_t length)
{
    bytes = realloc(bytes, length ? length : 1);
    see(bytes != NULL, "out of memory");
    return bytes;
}

/* Puts so many bytes of standard input behind those that the buffer has, and answers where they start. */
static size_t take(struct buffer *buffer, size_t more)
{
    size_t start = buffer->length;
    buffer->length += more;
    buffer->bytes = room(buffer->bytes, buffer->length);
    see(fread(buffer->bytes + start, 1, more, stdin) == more, "bad input");
    return start;
}

/* A job on the page that follows on standard input. It stands behind the pages before, and so it will in the output. */
static struct sotrugla_listed_job take_job(const uint8_t *head, struct buffer *tickets, struct buffer *source)
{
    struct sotrugla_listed_job job = {.width = 256u * head[0] + head[1], .height = 256u * head[2] + head[3]};
    job.ticket_length = 256u * head[4] + head[5];
    job.ticket_start = take(tickets, job.ticket_length);
    job.source_offset = job.output_offset = take(source, job.width * job.height);
    job.source_stride = job.output_stride = job.width;
    return job;
}

static void print_refused(struct sotrugla_outcome answer, const char *sentence)
{
    printf("refused %" PRIu64 " at %" PRIu64 "\n", answer.refusal, answer.place);
    fprintf(stderr, "%s\n", sentence);
}

static void print(const struct sotrugla_list *list, size_t number, struct sotrugla_outcome answer)
{
    struct sotrugla_job job = sotrugla_single_job(list, number);
    if (answer.refusal) {
        print_refused(answer, sotrugla_listed_sentence(answer.refusal, list, number));
        return;
    }
    printf("done %" PRIu64, answer.work);
    for (size_t at = 0; at < job.width * job.height; at++)
        printf(" %d", job.output[job.output_offset + at]);
    putchar('\n');
}

int main(void)
{
    struct sotrugla_listed_job jobs[SOTRUGLA_LIST_JOBS + 1];
    struct sotrugla_outcome answers[SOTRUGLA_LIST_JOBS];
    struct sotrugla_list list = {.jobs = jobs};
    struct buffer tickets = {0}, source = {0};
    uint8_t head[6];
    while (list.count <= SOTRUGLA_LIST_JOBS && fread(head, 1, sizeof head, stdin) == sizeof head) {
        struct sotrugla_listed_job job = take_job(head, &tickets, &source);
        size_t needed = sotrugla_scratch_needed(job.width, job.height);
        list.scratch_length = needed > list.scratch_length ? needed : list.scratch_length;
        jobs[list.count++] = job;
    }
    list.tickets = tickets.bytes, list.tickets_length = tickets.length;
    list.source = source.bytes, list.source_length = list.output_length = source.length;
    list.output = room(NULL, list.output_length), list.scratch = room(NULL, list.scratch_length);

    struct sotrugla_outcome whole = sotrugla_run_list(&list, answers);
    if (whole.refusal)
        print_refused(whole, sotrugla_sentence(whole.refusal));
    for (size_t k = 0; !whole.refusal && k < list.count; k++)
        print(&list, k, answers[k]);
    free(tickets.bytes), free(source.bytes), free(list.output), free(list.scratch);
    return 0;
}
