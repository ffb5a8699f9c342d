// Calls the library for each list of jobs on standard input and prints one line a list: refusal,
// place and work, then all numbers of the answers, then what was wrongly changed, then the whole
// output tray and the whole scratch in hex.

#include <inttypes.h>

#include "lent.h"
#include "sotrugla.h"

// A list on standard input is these numbers, the lowest byte first as x86-64 keeps them, and then
// the bytes of the six buffers. The lengths of jobs and answers count numbers.
struct list {
    uint64_t count, jobs_length, tickets_length, source_length, output_length, scratch_length;
    uint64_t answers_length;
};

// Every number; one that stands several times in a row once, with how often.
static void print_runs(const char *name, const uint64_t *numbers, size_t length)
{
    printf(" %s", name);
    for (size_t at = 0, times; at < length; at += times) {
        for (times = 1; at + times < length && numbers[at + times] == numbers[at];)
            times++;
        printf(" %" PRIu64, numbers[at]);
        if (times > 1)
            printf("*%zu", times);
    }
}

static void run(const struct list *list)
{
    struct lent jobs = lend_numbers("jobs", list->jobs_length);
    struct lent tickets = lend("tickets", list->tickets_length);
    struct lent source = lend("source", list->source_length);
    struct lent output = lend("output", list->output_length);
    struct lent scratch = lend("scratch", list->scratch_length);
    struct lent answers = lend_numbers("answers", list->answers_length);
    struct sotrugla_outcome answer = sotrugla_run_tray(
        list->count, numbers_of(jobs), list->jobs_length, tickets.bytes, tickets.length,
        source.bytes, source.length, output.bytes, output.length, scratch.bytes, scratch.length,
        numbers_of(answers), list->answers_length);
    printf("%" PRIu64 " %" PRIu64 " %" PRIu64, answer.refusal, answer.place, answer.work);
    print_runs(answers.name, numbers_of(answers), list->answers_length);
    print_wrong(jobs, 1);
    print_wrong(answers, 0);
    end_line(tickets, source, output, scratch);
    take_back(jobs);
    take_back(answers);
}

int main(void)
{
    struct list list;
    while (fread(&list, sizeof list, 1, stdin) == 1)
        run(&list);
    return 0;
}
