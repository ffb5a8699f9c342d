#include "tray.h"

#include <stdio.h>
#include <stdlib.h>
#include <string.h>

#include "sotrugla.h"

/* Sixteen pages across and sixteen down: the longest list, and no stride is above the law's. */
enum { JOBS = SOTRUGLA_LIST_JOBS, ACROSS = 16, DOWN = JOBS / ACROSS, LENGTH = 15 };
static const struct slope SLOPE = {5, 3};

enum way { CALL_EACH, CALL_ONCE, WAYS };

struct kind {
    size_t width, height; /* of each page */
    bool refuses;         /* every second job */
    int pairs;            /* timed in a round: a run of the list each way */
};
/* The last is A4 at 75 dpi, whose list takes so long that few pairs must do. */
static const struct kind KINDS[] = {{1, 1, false, 100}, {1, 1, true, 100}, {16, 16, false, 60}, {16, 16, true, 60},
                                    {64, 64, false, 20}, {64, 64, true, 20}, {620, 877, false, 4}};

/* The best of each way, and what one call took as a multiple of a call for each, pair by pair. */
struct taken {
    double best[WAYS];
    double *ratios;
    size_t pairs;
};

/* A list's trays. Both ways run on the same ones: where they stand moves a time by more than the limit allows. */
struct trays {
    struct page source, output;
    uint8_t *scratch;
    size_t scratch_length;
};

static struct trays lay_trays(const struct kind *kind)
{
    size_t width = ACROSS * kind->width, height = DOWN * kind->height;
    size_t scratch_length = sotrugla_scratch_needed(kind->width, kind->height);
    struct trays trays = {blank_page(width, height), blank_page(width, height), room(scratch_length), scratch_length};
    draw_noise(&trays.source);
    return trays;
}

static void leave_trays(struct trays *trays)
{
    leave_page(&trays->source), leave_page(&trays->output);
    leave(trays->scratch, trays->scratch_length);
}

static struct sotrugla_listed_job placed_job(const struct kind *kind, size_t stride, size_t number)
{
    size_t corner = number / ACROSS * kind->height * stride + number % ACROSS * kind->width;
    return (struct sotrugla_listed_job){.width = kind->width, .height = kind->height,
        .source_offset = corner, .source_stride = stride, .output_offset = corner, .output_stride = stride};
}

/* All jobs share a ticket. Of the refused ones every other has a ticket that ends too soon, the rest a page that passes
 * the end of its tray. */
static struct sotrugla_list list_jobs(const struct kind *kind, const struct trays *trays)
{
    static struct sotrugla_listed_job jobs[JOBS];
    static uint8_t bytes[SOTRUGLA_TICKET_BYTES];
    struct sotrugla_ticket ticket = sotrugla_centred(SOTRUGLA_OPEN, SOTRUGLA_CONNECTED, SLOPE.dx, SLOPE.dy, LENGTH);
    struct sotrugla_list list = {.count = JOBS, .jobs = jobs,
        .tickets = bytes, .tickets_length = sotrugla_put_ticket(&ticket, bytes, sizeof bytes),
        .source = trays->source.pixels, .source_length = page_bytes(&trays->source),
        .output = trays->output.pixels, .output_length = page_bytes(&trays->output),
        .scratch = trays->scratch, .scratch_length = trays->scratch_length};
    for (size_t number = 0; number < JOBS; number++) {
        bool refuses = kind->refuses && number % 2;
        jobs[number] = placed_job(kind, trays->source.width, number);
        jobs[number].ticket_length = list.tickets_length - (refuses && number % 4 == 1);
        if (refuses && number % 4 == 3)
            jobs[number].source_offset = list.source_length;
    }
    return list;
}

/* Straight from the numbers, as by a caller who knows that every ticket stands where its job says: no way without a
 * list is cheaper. */
static void call_each(const struct sotrugla_list *list, struct sotrugla_outcome *answers)
{
    for (size_t number = 0; number < list->count; number++) {
        const struct sotrugla_listed_job *job = list->jobs + number;
        answers[number] = sotrugla_run(list->tickets + job->ticket_start, job->ticket_length, job->width, job->height,
                                       job->source_offset, job->source_stride, job->output_offset, job->output_stride,
                                       list->source, list->source_length, list->output, list->output_length,
                                       list->scratch, list->scratch_length);
    }
}

static double run(const struct sotrugla_list *list, enum way way, struct sotrugla_outcome *answers)
{
    struct sotrugla_outcome whole = {0, 0, 0};
    double began = cpu_seconds();
    if (way == CALL_EACH)
        call_each(list, answers);
    else
        whole = sotrugla_run_list(list, answers);
    double seconds = cpu_seconds() - began;
    if (whole.refusal) {
        fprintf(stderr, "refused %d: %s\n", (int)whole.refusal, sotrugla_sentence(whole.refusal));
        exit(1);
    }
    return seconds;
}

static size_t count_refused(const struct sotrugla_outcome *answers)
{
    size_t refused = 0;
    for (size_t number = 0; number < JOBS; number++)
        refused += answers[number].refusal != 0;
    return refused;
}

/* Both ways on trays that held the same bytes: answers and outputs must be the same, and the refused jobs as many as
 * the kind says, or no time is worth telling. */
static void check_ways(const struct kind *kind, const struct sotrugla_list *list)
{
    static struct sotrugla_outcome answers[WAYS][JOBS];
    uint8_t *kept = room(list->output_length);
    run(list, CALL_EACH, answers[CALL_EACH]);
    memcpy(kept, list->output, list->output_length);
    memset(list->output, WHITE, list->output_length);
    run(list, CALL_ONCE, answers[CALL_ONCE]);
    if (memcmp(answers[CALL_EACH], answers[CALL_ONCE], sizeof *answers) ||
        memcmp(kept, list->output, list->output_length) ||
        count_refused(answers[CALL_ONCE]) != (kind->refuses ? JOBS / 2 : 0)) {
        fprintf(stderr, "a list of pages of %zu by %zu is run wrongly\n", kind->width, kind->height);
        exit(1);
    }
    leave(kept, list->output_length);
}

/* The ways stand beside each other and take turns at being first, so that both find the same state of the machine. */
static void time_ways(const struct kind *kind, const struct sotrugla_list *list, struct taken *taken)
{
    static struct sotrugla_outcome answers[JOBS];
    for (int pair = 0; pair < kind->pairs; pair++) {
        double seconds[WAYS];
        for (int turn = 0; turn < WAYS; turn++) {
            enum way way = (pair + turn) % WAYS;
            seconds[way] = run(list, way, answers);
            taken->best[way] = least(taken->best[way], seconds[way]);
        }
        taken->ratios[taken->pairs++] = seconds[CALL_ONCE] / seconds[CALL_EACH];
    }
}

static int by_size(const void *one, const void *other)
{
    double first = *(const double *)one, second = *(const double *)other;
    return (first > second) - (first < second);
}

/* Not the quotient of the bests: a run of a list takes long enough for the machine to change, and then the best of one
 * way meets it at its quickest and the best of the other does not. */
static double median_ratio(struct taken *taken)
{
    qsort(taken->ratios, taken->pairs, sizeof *taken->ratios, by_size);
    return (taken->ratios[(taken->pairs - 1) / 2] + taken->ratios[taken->pairs / 2]) / 2;
}

static void measure_kind(const struct plan *plan, const struct kind *kind)
{
    size_t ratios_length = (size_t)(plan->rounds * kind->pairs) * sizeof(double);
    struct taken taken = {{1e9, 1e9}, (double *)room(ratios_length), 0};
    for (int round = 0; round < plan->rounds; round++) { /* a place of its own in memory for each */
        struct trays trays = lay_trays(kind);
        struct sotrugla_list list = list_jobs(kind, &trays);
        check_ways(kind, &list);
        time_ways(kind, &list, &taken);
        leave_trays(&trays);
    }
    printf("tray\t%zu by %zu\tnoise\t%d\t%d\t%d\t%s\t%d\t%zu\t%.9f\t%.9f\t%.6f\n", kind->width, kind->height, SLOPE.dx,
           SLOPE.dy, LENGTH, kind->refuses ? "every second refused" : "all finished", JOBS, taken.pairs,
           taken.best[CALL_EACH], taken.best[CALL_ONCE], median_ratio(&taken));
    leave((uint8_t *)taken.ratios, ratios_length);
}

void measure_tray(const struct plan *plan)
{
    for (size_t at = 0; at < sizeof KINDS / sizeof *KINDS; at++)
        measure_kind(plan, &KINDS[at]);
}
