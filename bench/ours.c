/* Sotrugla as a timed program: one call is one job, ticket and all. */
#include <stdio.h>
#include <string.h>

#include "program.h"
#include "sotrugla.h"

enum { TICKET_MOST = 30 + 64 * 11 };

static struct page held;
static uint8_t *output, *scratch;
static size_t output_length, scratch_length;

static uint8_t *put(uint8_t *at, int number)
{
    *at++ = (uint8_t)(number >> 8);
    *at++ = (uint8_t)number;
    return at;
}

static uint8_t *head(uint8_t *at, int tag, int length)
{
    *at++ = (uint8_t)tag;
    return put(at, length);
}

static uint8_t *hide_boxes(uint8_t *at, int boxes)
{
    for (int box = 0; box < boxes; box++) {
        struct spot corner = box_corner(&held, box);
        at = put(put(head(at, 7, 8), corner.column), corner.row);
        at = put(put(at, BOX_WIDTH), BOX_HEIGHT);
    }
    return at;
}

static size_t write_ticket(uint8_t *ticket, struct order order)
{
    uint8_t *at = head(ticket, 1, 1);
    *at++ = (uint8_t)order.operation;
    at = head(at, 2, 1);
    *at++ = 1; /* a connected line */
    at = put(put(head(at, 3, 4), order.slope.dx), order.slope.dy);
    at = put(head(at, 4, 2), order.length);
    at = put(head(at, 5, 2), (order.length - 1) / 2);
    at = put(head(at, 6, 2), 0);
    return (size_t)(hide_boxes(at, order.boxes) - ticket);
}

static const char *version(void)
{
    return SOTRUGLA_VERSION;
}

static bool serves(struct order order)
{
    (void)order;
    return true;
}

static void take(const struct page *page)
{
    uint8_t *old_output = output, *old_scratch = scratch;
    size_t old_output_length = output_length, old_scratch_length = scratch_length;
    held = *page;
    output_length = page_bytes(page);
    scratch_length = sotrugla_scratch_needed(page->width, page->height);
    output = room(output_length), scratch = room(scratch_length);
    if (old_output) /* left last, so that the new ones stand elsewhere in the memory */
        leave(old_output, old_output_length), leave(old_scratch, old_scratch_length);
}

static double filter(struct order order)
{
    uint8_t ticket[TICKET_MOST];
    struct sotrugla_job job = {.ticket = ticket, .ticket_length = write_ticket(ticket, order),
        .width = held.width, .height = held.height,
        .source = held.pixels, .source_length = output_length, .source_stride = held.width,
        .output = output, .output_length = output_length, .output_stride = held.width,
        .scratch = scratch, .scratch_length = scratch_length};
    double began = cpu_seconds();
    struct sotrugla_outcome answer = sotrugla_run_job(&job);
    double seconds = cpu_seconds() - began;
    if (answer.refusal) {
        fprintf(stderr, "refused %d: %s\n", (int)answer.refusal, sotrugla_sentence(answer.refusal));
        exit(1);
    }
    return seconds;
}

static void give(uint8_t *pixels)
{
    memcpy(pixels, output, page_bytes(&held));
}

const struct program sotrugla = {"Sotrugla", version, false, serves, take, filter, give};
