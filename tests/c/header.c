/* The inline functions of sotrugla.h, tested as C and as C++: tickets that are put are read back by the proved
 * reader, what has no place is not put, and each refusal that the library answers gets the sentence that says
 * which. Prints one line; the first wrong thing is told instead, and the exit status is then 1. */
#include <stdio.h>
#include <string.h>

#include "see.h"
#include "sotrugla.h"

/* ROOM has a place for a 65th box too: it is not for want of room that a ticket is not put there. */
enum { UNWRITTEN = 0xA5, ROOM = 1000 };

static struct sotrugla_ticket opening(void)
{
    return sotrugla_centred(SOTRUGLA_OPEN, SOTRUGLA_CONNECTED, 1, 0, 2);
}

static void see_read_back(struct sotrugla_ticket ticket)
{
    uint8_t bytes[SOTRUGLA_TICKET_BYTES];
    struct sotrugla_ticket shown;
    size_t length = sotrugla_put_ticket(&ticket, bytes, sizeof bytes);
    SEE(length == 30 + 11 * (size_t)ticket.count);
    SEE(sotrugla_read(bytes, length, &shown).refusal == 0);
    SEE(memcmp(&shown, &ticket, sizeof ticket) == 0);
}

static void see_bytes(void)
{
    const uint8_t wanted[] = {1, 0, 1, 3, 2, 0, 1, 1, 3, 0, 4, 0, 1, 0, 0, 4,   0,   2, 0, 2, 5,
                              0, 2, 0, 1, 6, 0, 2, 0, 0, 7, 0, 8, 0, 6, 1, 255, 255, 0, 0, 1};
    uint8_t bytes[sizeof wanted];
    struct sotrugla_ticket ticket = opening();
    SEE(sotrugla_hide(&ticket, 6, 511, 65280, 1));
    SEE(sotrugla_put_ticket(&ticket, bytes, sizeof bytes) == sizeof bytes);
    SEE(memcmp(bytes, wanted, sizeof bytes) == 0);
}

static void see_tickets(void)
{
    const int vectors[][2] = {{1, 0}, {0, 1}, {1, 1}, {2, -1}, {-1, 2}, {255, -254}, {-254, 255}};
    for (int operation = SOTRUGLA_ERODE; operation <= SOTRUGLA_CLOSE; operation++)
        for (int line = SOTRUGLA_CONNECTED; line <= SOTRUGLA_PERIODIC; line++)
            for (size_t k = 0; k < sizeof vectors / sizeof *vectors; k++)
                see_read_back(sotrugla_centred(operation, line, vectors[k][0], vectors[k][1], 7));
    struct sotrugla_ticket ticket = sotrugla_centred(SOTRUGLA_CLOSE, SOTRUGLA_CONNECTED, -2, 255, 8192);
    ticket.origin = 8191, ticket.phase = 254;
    see_read_back(ticket);
}

static void see_middles(void)
{
    const int middles[] = {0, 1, 1, 2, 2, 3};
    for (int length = 1; length <= 6; length++)
        SEE(sotrugla_centred(SOTRUGLA_ERODE, SOTRUGLA_PERIODIC, 1, 1, length).origin == middles[length - 1]);
}

/* Into a buffer of this length the ticket is not put, and no byte is written. */
static void see_not_put(const struct sotrugla_ticket *ticket, size_t length)
{
    uint8_t bytes[ROOM], kept[ROOM];
    memset(bytes, UNWRITTEN, sizeof bytes);
    memset(kept, UNWRITTEN, sizeof kept);
    SEE(sotrugla_put_ticket(ticket, bytes, length) == 0);
    SEE(memcmp(bytes, kept, sizeof bytes) == 0);
}

/* 64 boxes with numbers from 0 to the largest that a field has a place for; a ticket with a 65th is not put. */
static void see_boxes(void)
{
    struct sotrugla_ticket ticket = opening();
    for (int64_t k = 0; k < SOTRUGLA_BOXES; k++) {
        SEE(sotrugla_hide(&ticket, 1040 * k, 65535 - k, k, 65535));
        see_read_back(ticket);
    }
    SEE(ticket.count == 64 && SOTRUGLA_TICKET_BYTES == 30 + 64 * 11);
    for (int more = 0; more < 3; more++) {
        SEE(!sotrugla_hide(&ticket, 1, 2, 3, 4));
        see_not_put(&ticket, ROOM);
    }
    ticket.count = -1;
    SEE(!sotrugla_hide(&ticket, 1, 2, 3, 4));
    see_not_put(&ticket, ROOM);
}

/* The least and the largest number of a field are put, those beyond are not. number is one of the ticket's. */
static void see_place(const struct sotrugla_ticket *ticket, int64_t *number, int64_t least, int64_t most)
{
    const int64_t beyond[] = {least - 1, most + 1, INT64_MIN, INT64_MAX};
    uint8_t bytes[SOTRUGLA_TICKET_BYTES];
    int64_t kept = *number;
    *number = least;
    SEE(sotrugla_put_ticket(ticket, bytes, sizeof bytes) == 41);
    *number = most;
    SEE(sotrugla_put_ticket(ticket, bytes, sizeof bytes) == 41);
    for (size_t k = 0; k < sizeof beyond / sizeof *beyond; k++) {
        *number = beyond[k];
        see_not_put(ticket, ROOM);
    }
    *number = kept;
}

static void see_places(void)
{
    struct sotrugla_ticket ticket = opening();
    SEE(sotrugla_hide(&ticket, 6, 3, 2, 1));
    see_place(&ticket, &ticket.operation, 0, 255);
    see_place(&ticket, &ticket.line, 0, 255);
    see_place(&ticket, &ticket.dx, -32768, 32767);
    see_place(&ticket, &ticket.dy, -32768, 32767);
    see_place(&ticket, &ticket.length, 0, 65535);
    see_place(&ticket, &ticket.origin, 0, 65535);
    see_place(&ticket, &ticket.phase, 0, 65535);
    see_place(&ticket, &ticket.boxes[0].left, 0, 65535);
    see_place(&ticket, &ticket.boxes[0].top, 0, 65535);
    see_place(&ticket, &ticket.boxes[0].width, 0, 65535);
    see_place(&ticket, &ticket.boxes[0].height, 0, 65535);
}

static void see_short_buffers_and_counts(void)
{
    const int64_t counts[] = {-1, 65, INT64_MIN, INT64_MAX};
    struct sotrugla_ticket ticket = opening();
    see_not_put(&ticket, 0);
    see_not_put(&ticket, 29);
    SEE(sotrugla_put_ticket(&ticket, NULL, 0) == 0);
    SEE(sotrugla_hide(&ticket, 6, 3, 2, 1));
    see_not_put(&ticket, 40);
    for (size_t k = 0; k < sizeof counts / sizeof *counts; k++) {
        ticket.count = counts[k];
        see_not_put(&ticket, ROOM);
    }
}

/* A vector that is refused, through each of the three calls. */
static void see_vector(int line, int dx, int dy, const char *sentence)
{
    uint8_t bytes[SOTRUGLA_TICKET_BYTES];
    struct sotrugla_ticket ticket = sotrugla_centred(SOTRUGLA_OPEN, line, dx, dy, 2), shown;
    size_t length = sotrugla_put_ticket(&ticket, bytes, sizeof bytes);
    struct sotrugla_outcome read = sotrugla_read(bytes, length, &shown);
    SEE(read.refusal == SOTRUGLA_BAD_VECTOR && read.place == 8);
    SEE(same(sotrugla_ticket_sentence(read.refusal, bytes, length), sentence));
    struct sotrugla_job job;
    memset(&job, 0, sizeof job);
    job.ticket = bytes, job.ticket_length = length;
    SEE(same(sotrugla_job_sentence(sotrugla_run_job(&job).refusal, &job), sentence));
    uint64_t refusal = sotrugla_run_pgm(bytes, length, NULL, 0, NULL, 0, NULL, 0).refusal;
    SEE(same(sotrugla_file_sentence(refusal, bytes, length), sentence));
}

static void see_vectors(void)
{
    const char *none = "the vector is 0, 0 and has no direction";
    const char *beyond = "a component of the vector is beyond -255 to 255";
    const char *neither = "the vector is neither shallow (dx at least the size of dy) "
                          "nor steep (dy above the size of dx)";
    const char *divisor = "dx and dy of a connected line have a common divisor above 1";
    const int bad[][2] = {{-1, 0}, {0, -1}, {-1, 1}, {-1, -1}, {1, -2}, {-2, 1}, {-255, 255}, {254, -255}};
    const int far_off[][2] = {{256, 0}, {0, 256}, {-256, 1}, {1, -256}, {32767, 1}, {-32768, -32768}};
    const int divided[][2] = {{2, 2}, {2, 0}, {0, 2}, {255, -255}, {-3, 6}, {254, 2}};
    for (int line = SOTRUGLA_CONNECTED; line <= SOTRUGLA_PERIODIC; line++) {
        see_vector(line, 0, 0, none);
        for (size_t k = 0; k < sizeof bad / sizeof *bad; k++)
            see_vector(line, bad[k][0], bad[k][1], neither);
        for (size_t k = 0; k < sizeof far_off / sizeof *far_off; k++)
            see_vector(line, far_off[k][0], far_off[k][1], beyond);
    }
    for (size_t k = 0; k < sizeof divided / sizeof *divided; k++)
        see_vector(SOTRUGLA_CONNECTED, divided[k][0], divided[k][1], divisor);
}

/* A placement that is refused: its width, height, source stride and output stride. */
static void see_placement(const size_t *numbers, const char *sentence)
{
    uint8_t bytes[SOTRUGLA_TICKET_BYTES];
    struct sotrugla_ticket ticket = opening();
    struct sotrugla_job job;
    memset(&job, 0, sizeof job);
    job.ticket = bytes, job.ticket_length = sotrugla_put_ticket(&ticket, bytes, sizeof bytes);
    job.width = numbers[0], job.height = numbers[1];
    job.source_stride = numbers[2], job.output_stride = numbers[3];
    struct sotrugla_outcome answer = sotrugla_run_job(&job);
    SEE(answer.refusal == SOTRUGLA_BAD_SIDES);
    SEE(same(sotrugla_job_sentence(answer.refusal, &job), sentence));
}

static void see_placements(void)
{
    const size_t widths[][4] = {{0, 0, 0, 0}, {8193, 1, 8193, 8193}, {SIZE_MAX, 1, 0, 0}};
    const size_t heights[][4] = {{1, 0, 0, 0}, {8192, 8193, 1, 1}, {3, SIZE_MAX, 3, 3}};
    const size_t sources[][4] = {{3, 1, 2, 2}, {8192, 8192, 16385, 1}, {1, 1, SIZE_MAX, 1}};
    const size_t outputs[][4] = {{3, 1, 3, 2}, {8192, 8192, 16384, 16385}, {1, 1, 1, SIZE_MAX}};
    for (int k = 0; k < 3; k++) {
        see_placement(widths[k], "the width is not 1 to 8192");
        see_placement(heights[k], "the height is not 1 to 8192");
        see_placement(sources[k], "the source stride is not from the width to 16384");
        see_placement(outputs[k], "the output stride is not from the width to 16384");
    }
}

static void see_file(void)
{
    const uint8_t file[] = {'P', '5', ' ', '0', ' ', '1', ' ', '9', '\n'};
    struct sotrugla_pgm shown = sotrugla_read_pgm(file, sizeof file);
    SEE(shown.refusal == SOTRUGLA_BAD_SIDES);
    SEE(same(sotrugla_file_sentence(shown.refusal, NULL, 0), "a side of the file's page is not 1 to 8192"));
}

/* Where there is nothing to tell apart, and where the bytes do not show which, the sentence is the number's. */
static void see_other_sentences(void)
{
    uint8_t bytes[SOTRUGLA_TICKET_BYTES];
    struct sotrugla_ticket ticket = opening();
    struct sotrugla_job job;
    memset(&job, 0, sizeof job);
    job.ticket = bytes, job.ticket_length = sotrugla_put_ticket(&ticket, bytes, sizeof bytes);
    for (uint64_t refusal = 0; refusal <= 101; refusal++) {
        const char *sentence = sotrugla_sentence(refusal);
        if (refusal != SOTRUGLA_BAD_VECTOR && refusal != SOTRUGLA_BAD_SIDES) {
            SEE(same(sotrugla_ticket_sentence(refusal, bytes, job.ticket_length), sentence));
            SEE(same(sotrugla_job_sentence(refusal, &job), sentence));
            SEE(same(sotrugla_file_sentence(refusal, bytes, job.ticket_length), sentence));
        }
        SEE(same(sotrugla_ticket_sentence(refusal, bytes, 14), sentence));
    }
    SEE(same(sotrugla_sentence(SOTRUGLA_BAD_VECTOR), "the vector is not allowed"));
    SEE(same(sotrugla_sentence(SOTRUGLA_NUMBERS_TOO_FEW), "the buffer of numbers is too short"));
    SEE(same(sotrugla_sentence(SOTRUGLA_TOO_MANY_JOBS), "the list has more than 256 jobs"));
    SEE(same(sotrugla_sentence(SOTRUGLA_PIXEL_OFF_PAGE), "the pixel is off the page"));
    SEE(same(sotrugla_sentence(20), "unknown refusal"));
}

static void see_version(void)
{
    int major, minor, patch;
    char more;
    SEE(sscanf(SOTRUGLA_VERSION, "%d.%d.%d%c", &major, &minor, &patch, &more) == 3);
    SEE(SOTRUGLA_VERSION_NUMBER == 1000000 * major + 1000 * minor + patch);
    SEE(sotrugla_version() == SOTRUGLA_VERSION_NUMBER);
}

int main(void)
{
    see_bytes();
    see_tickets();
    see_middles();
    see_boxes();
    see_places();
    see_short_buffers_and_counts();
    see_vectors();
    see_placements();
    see_file();
    see_other_sentences();
    see_version();
    printf("the header's tickets, sentences and version: %d checks\n", checks);
    return 0;
}
