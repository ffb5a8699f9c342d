/* Lists of jobs, tested as C and as C++: the layout of their numbers, that a list answers and writes what single calls
 * do, what is refused for a whole list and in which order, and the sentences of jobs that are refused. Prints one line;
 * the first wrong thing is told instead, and the exit status is then 1. */
#include <assert.h>
#include <stddef.h>
#include <stdio.h>
#include <string.h>

#include "see.h"
#include "sotrugla.h"

static_assert(sizeof(struct sotrugla_listed_job) == SOTRUGLA_JOB_NUMBERS * 8, "eight numbers for each job");
static_assert(offsetof(struct sotrugla_listed_job, ticket_start) == 0, "");
static_assert(offsetof(struct sotrugla_listed_job, ticket_length) == 8, "");
static_assert(offsetof(struct sotrugla_listed_job, width) == 16, "");
static_assert(offsetof(struct sotrugla_listed_job, height) == 24, "");
static_assert(offsetof(struct sotrugla_listed_job, source_offset) == 32, "");
static_assert(offsetof(struct sotrugla_listed_job, source_stride) == 40, "");
static_assert(offsetof(struct sotrugla_listed_job, output_offset) == 48, "");
static_assert(offsetof(struct sotrugla_listed_job, output_stride) == 56, "");
static_assert(sizeof(struct sotrugla_outcome) == SOTRUGLA_ANSWER_NUMBERS * 8, "three numbers for each answer");
static_assert(offsetof(struct sotrugla_outcome, refusal) == 0, "");
static_assert(offsetof(struct sotrugla_outcome, place) == 8, "");
static_assert(offsetof(struct sotrugla_outcome, work) == 16, "");
static_assert(SOTRUGLA_LIST_ANSWERS == 768, "256 answers");

enum { UNWRITTEN = 0xA5, SOURCE = 8, OUTPUT = 12, SCRATCH = 20 };

/* One job more than a list may have, and two numbers more than its answers have. */
enum { MANY = SOTRUGLA_LIST_JOBS + 1, ROOM = SOTRUGLA_LIST_ANSWERS + 2 };

/* What a call writes. */
struct written {
    uint8_t output[OUTPUT], scratch[SCRATCH];
    uint64_t answers[ROOM];
};

/* The row 9 1 5 in the middle of its tray, and 7 3 8 over its end. */
static const uint8_t source[SOURCE] = {77, 9, 1, 5, 7, 3, 8, 77};

/* An opening with a segment of two steps, twice, and between them one along the vector 2, 2, which is refused. */
static uint8_t tickets[90];

static void put_tickets(void)
{
    struct sotrugla_ticket ticket = sotrugla_centred(SOTRUGLA_OPEN, SOTRUGLA_CONNECTED, 1, 0, 2);
    SEE(sotrugla_put_ticket(&ticket, tickets, 30) == 30);
    SEE(sotrugla_put_ticket(&ticket, tickets + 60, 30) == 30);
    ticket.dx = ticket.dy = 2;
    SEE(sotrugla_put_ticket(&ticket, tickets + 30, 30) == 30);
}

/* A job on three pixels of a row, by the first ticket. */
static struct sotrugla_listed_job job_at(uint64_t source_offset, uint64_t output_offset)
{
    struct sotrugla_listed_job job = {0, 30, 3, 1, 0, 3, 0, 3};
    job.source_offset = source_offset, job.output_offset = output_offset;
    return job;
}

static struct written unwritten(void)
{
    struct written fresh;
    memset(&fresh, UNWRITTEN, sizeof fresh);
    return fresh;
}

static struct sotrugla_list list_of(const struct sotrugla_listed_job *jobs, size_t count, struct written *written)
{
    struct sotrugla_list list;
    list.count = count, list.jobs = jobs;
    list.tickets = tickets, list.tickets_length = sizeof tickets;
    list.source = source, list.source_length = sizeof source;
    list.output = written->output, list.output_length = sizeof written->output;
    list.scratch = written->scratch, list.scratch_length = sizeof written->scratch;
    return list;
}

/* What a list writes, which is what single calls in list order write. */
static struct written listed(const struct sotrugla_listed_job *jobs, size_t count)
{
    struct written found = unwritten(), wanted = unwritten();
    struct sotrugla_list list = list_of(jobs, count, &found);
    struct sotrugla_outcome whole = sotrugla_run_list(&list, (struct sotrugla_outcome *)found.answers);
    SEE(whole.refusal == 0 && whole.place == 0 && whole.work == 0);
    list = list_of(jobs, count, &wanted);
    memset(wanted.answers, 0, SOTRUGLA_LIST_ANSWERS * sizeof *wanted.answers);
    for (size_t k = 0; k < count; k++) {
        struct sotrugla_job job = sotrugla_single_job(&list, k);
        struct sotrugla_outcome answer = sotrugla_run_job(&job);
        memcpy(wanted.answers + SOTRUGLA_ANSWER_NUMBERS * k, &answer, sizeof answer);
    }
    SEE(memcmp(&found, &wanted, sizeof found) == 0);
    return found;
}

static int is_answer(const struct written *written, size_t number, uint64_t refusal, uint64_t place, uint64_t work)
{
    const uint64_t *answer = written->answers + SOTRUGLA_ANSWER_NUMBERS * number;
    return answer[0] == refusal && answer[1] == place && answer[2] == work;
}

static void see_a_refused_job_between(void)
{
    const uint8_t wanted[OUTPUT] = {UNWRITTEN, 9, 1, 1, UNWRITTEN, UNWRITTEN,
                                    UNWRITTEN, 7, 3, 3, UNWRITTEN, UNWRITTEN};
    struct sotrugla_listed_job jobs[] = {job_at(1, 1), job_at(1, 4), job_at(4, 7)};
    jobs[1].ticket_start = 30, jobs[2].ticket_start = 60;
    struct written written = listed(jobs, 3);
    SEE(is_answer(&written, 0, 0, 0, 6));
    SEE(is_answer(&written, 1, SOTRUGLA_BAD_VECTOR, 8, 0));
    SEE(is_answer(&written, 2, 0, 0, 6));
    for (size_t k = 3; k < SOTRUGLA_LIST_JOBS; k++)
        SEE(is_answer(&written, k, 0, 0, 0));
    SEE(memcmp(written.output, wanted, sizeof wanted) == 0);
}

static void see_overlapping_pages(void)
{
    const uint8_t first[] = {9, 1, 7, 3, 3}, last[] = {9, 1, 1, 3, 3};
    struct sotrugla_listed_job jobs[] = {job_at(1, 0), job_at(4, 2), job_at(1, 9)};
    struct written written = listed(jobs, 3);
    SEE(memcmp(written.output, first, sizeof first) == 0);
    struct sotrugla_listed_job exchanged[] = {jobs[1], jobs[0], jobs[2]};
    written = listed(exchanged, 3);
    SEE(memcmp(written.output, last, sizeof last) == 0);
}

static void see_tickets_not_wholly_in_their_buffer(void)
{
    const uint64_t places[][2] = {{61, 30},        {90, 0},         {90, 1},      {91, 0},
                                  {0, 91},         {UINT64_MAX, 1}, {UINT64_MAX, 31}, {1, UINT64_MAX},
                                  {UINT64_MAX, 0}, {60, UINT64_MAX}};
    for (size_t k = 0; k < sizeof places / sizeof *places; k++) {
        struct sotrugla_listed_job jobs[] = {job_at(1, 0), job_at(4, 3)};
        jobs[0].ticket_start = places[k][0], jobs[0].ticket_length = places[k][1];
        struct written written = listed(jobs, 2);
        SEE(is_answer(&written, 0, SOTRUGLA_TICKET_ENDS, 0, 0));
        SEE(is_answer(&written, 1, 0, 0, 6));
    }
}

static void see_lists_of_every_length(void)
{
    struct sotrugla_listed_job jobs[SOTRUGLA_LIST_JOBS];
    struct written written = listed(NULL, 0);
    SEE(is_answer(&written, 0, 0, 0, 0) && written.output[0] == UNWRITTEN);
    for (size_t k = 0; k < SOTRUGLA_LIST_JOBS; k++)
        jobs[k] = job_at(k % 6, k % 11);
    written = listed(jobs, SOTRUGLA_LIST_JOBS);
    /* 255 % 6 is 3, 255 % 11 is 2: 5 7 3 opened. */
    SEE(is_answer(&written, 255, 0, 0, 6) && written.output[2] == 5 && written.output[4] == 3);
    SEE(is_answer(&written, 10, SOTRUGLA_OUTPUT_TOO_SHORT, 0, 0));
}

/* The answer to a list with so many numbers of jobs and answers, and whether 768 answers were zeroed: nothing else is
 * written where a whole list is refused. */
static void see_whole_list(size_t count, size_t numbers, size_t answers, uint64_t refusal, uint64_t place)
{
    static struct sotrugla_listed_job jobs[MANY];
    for (size_t k = 0; k < MANY; k++)
        jobs[k] = job_at(1, 0);
    struct written found = unwritten(), wanted = unwritten();
    struct sotrugla_outcome whole = sotrugla_run_tray(
        count, (const uint64_t *)jobs, numbers, tickets, sizeof tickets, source, sizeof source, found.output,
        sizeof found.output, found.scratch, sizeof found.scratch, found.answers, answers);
    SEE(whole.refusal == refusal && whole.place == place && whole.work == 0);
    if (refusal == SOTRUGLA_TOO_MANY_JOBS)
        memset(wanted.answers, 0, SOTRUGLA_LIST_ANSWERS * sizeof *wanted.answers);
    SEE(memcmp(&found, &wanted, sizeof found) == 0);
}

static void see_refused_lists(void)
{
    const size_t all = 8 * MANY, room = SOTRUGLA_LIST_ANSWERS;
    see_whole_list(257, all, room, SOTRUGLA_TOO_MANY_JOBS, 0);
    see_whole_list(257, all, ROOM, SOTRUGLA_TOO_MANY_JOBS, 0);
    see_whole_list(257, 0, room, SOTRUGLA_TOO_MANY_JOBS, 0);
    see_whole_list(SIZE_MAX, all, room, SOTRUGLA_TOO_MANY_JOBS, 0);
    /* So many that eight numbers for each make 8 in 64 bits. */
    see_whole_list(SIZE_MAX / 8 + 2, all, room, SOTRUGLA_TOO_MANY_JOBS, 0);
    see_whole_list(1, 8, room - 1, SOTRUGLA_NUMBERS_TOO_FEW, room);
    see_whole_list(0, 0, 0, SOTRUGLA_NUMBERS_TOO_FEW, room);
    see_whole_list(257, 0, room - 1, SOTRUGLA_NUMBERS_TOO_FEW, room);
    see_whole_list(1, 7, room, SOTRUGLA_NUMBERS_TOO_FEW, 8);
    see_whole_list(256, 2047, room, SOTRUGLA_NUMBERS_TOO_FEW, 2048);
}

static void see_sentences(void)
{
    struct sotrugla_listed_job jobs[] = {job_at(1, 0), job_at(1, 0), job_at(1, 0), job_at(1, 0)};
    jobs[1].ticket_start = 30;
    jobs[2].height = 8193;
    jobs[3].ticket_start = 90;
    struct written written = unwritten();
    struct sotrugla_list list = list_of(jobs, 4, &written);
    SEE(same(sotrugla_listed_sentence(0, &list, 0), "the page is finished"));
    SEE(same(sotrugla_listed_sentence(SOTRUGLA_BAD_VECTOR, &list, 1),
             "dx and dy of a connected line have a common divisor above 1"));
    SEE(same(sotrugla_listed_sentence(SOTRUGLA_BAD_SIDES, &list, 2), "the height is not 1 to 8192"));
    for (uint64_t refusal = 0; refusal <= 101; refusal++)
        if (refusal != SOTRUGLA_BAD_SIDES)
            SEE(same(sotrugla_listed_sentence(refusal, &list, 3), sotrugla_sentence(refusal)));
}

int main(void)
{
    put_tickets();
    see_a_refused_job_between();
    see_overlapping_pages();
    see_tickets_not_wholly_in_their_buffer();
    see_lists_of_every_length();
    see_refused_lists();
    see_sentences();
    printf("lists of jobs: %d checks\n", checks);
    return 0;
}
