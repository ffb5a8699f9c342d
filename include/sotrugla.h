/* Sotrugla: one grey page of a tray filtered along lines into another tray, as a job ticket orders; or a
 * whole list of such jobs on the same trays; or the page of a raw Netpbm grey file (P5) into another such file.
 * And of any pixel of such a page the reason why it comes out so.
 *
 * A page is placed in a tray of bytes by its offset, sides and stride: the pixel at column c, row r is
 * byte offset + r * stride + c. Source and output pages share their sides.
 *
 * Every ticket, placement and buffer length gets an answer; what each function of the library answers and
 * writes is proved for all of them. Four things the library cannot see, and the caller must keep:
 *   - a buffer has as many bytes (or numbers) as its length says; a buffer of length 0 may be NULL;
 *   - the buffers of one call do not overlap, but for those that are only read: tickets, a list's jobs, the
 *     source, a file;
 *   - nobody else writes to a buffer, or reads one that is written, while a call runs;
 *   - a call needs 256 KiB of stack.
 * The caller owns every buffer before, during and after a call. Nothing is allocated or kept, there is
 * no state and no lock: threads may call at the same time with buffers of their own.
 *
 * The inline functions are this header's own, tested and not proved: they name the numbers of a job and of a
 * list, write a ticket's bytes and put refusals and reasons into sentences. Those whose names end in _ serve the
 * others alone. */
#ifndef SOTRUGLA_H
#define SOTRUGLA_H

#include <stddef.h>
#include <stdint.h>
#include <stdio.h>
#include <string.h>

#define SOTRUGLA_VERSION "0.6.0"
#define SOTRUGLA_VERSION_NUMBER 6000 /* 1000000 * major + 1000 * minor + patch */

#if SIZE_MAX != UINT64_MAX
#error "Sotrugla is for machines whose sizes are 64-bit numbers"
#endif

#ifdef __cplusplus
extern "C" {
#endif

/* The version of the library that runs, as SOTRUGLA_VERSION_NUMBER is that of this header. */
uint64_t sotrugla_version(void);

/* An answer. refusal is 0 for a finished page, else the refusal's number, and place says where: the
 * ticket's byte where the field at fault starts (refusals 1 to 9), the number of the box from 0 (14), the
 * file's first byte at fault, or its length where it ends too soon (15 to 17), the numbers needed (100),
 * else 0. work is the count of comparisons; a refusal has 0. The answer to a whole list is 0, 0, 0 where its
 * jobs have answers of their own, whatever these are. */
struct sotrugla_outcome {
    uint64_t refusal, place, work;
};

/* 1 to 25 are kept for the law's refusals, of which later versions may know more. 18 is that of a whole list:
 * no job of it has been looked at. 19 is that of a question about a pixel, which sotrugla_why is. 100 is the
 * answer to every call that is handed a buffer of numbers too short; nothing is written then. */
enum {
    SOTRUGLA_TICKET_ENDS = 1,
    SOTRUGLA_WRONG_TAG = 2,
    SOTRUGLA_WRONG_LENGTH = 3,
    SOTRUGLA_UNKNOWN = 4,
    SOTRUGLA_TOO_MANY_BOXES = 5,
    SOTRUGLA_BAD_VECTOR = 6,
    SOTRUGLA_BAD_LENGTH = 7,
    SOTRUGLA_BAD_ORIGIN = 8,
    SOTRUGLA_BAD_PHASE = 9,
    SOTRUGLA_BAD_SIDES = 10,
    SOTRUGLA_SOURCE_TOO_SHORT = 11,
    SOTRUGLA_OUTPUT_TOO_SHORT = 12,
    SOTRUGLA_SCRATCH_TOO_SHORT = 13,
    SOTRUGLA_BAD_BOX = 14,
    SOTRUGLA_BAD_HEADER = 15,
    SOTRUGLA_BAD_MAXIMUM = 16,
    SOTRUGLA_BAD_PIXEL = 17,
    SOTRUGLA_TOO_MANY_JOBS = 18,
    SOTRUGLA_PIXEL_OFF_PAGE = 19,
    SOTRUGLA_NUMBERS_TOO_FEW = 100
};

/* Filters one page of the source tray into the output tray.
 *   ticket    read only; the job ticket's bytes
 *   source    read only, and of it only the page's bytes
 *   output    written: the page's bytes at a finished page, nothing else; at a refusal nothing
 *   scratch   its first sotrugla_scratch_needed(width, height) bytes are written, and hold 0 after a
 *             finished page; at a refusal nothing is written
 * What output and scratch held before changes nothing in the answer or the page.
 * Cost: at most three comparisons a pixel for erosion and dilation, six for opening and closing. */
struct sotrugla_outcome sotrugla_run(const uint8_t *ticket, size_t ticket_length, size_t width,
                                     size_t height, size_t source_offset, size_t source_stride,
                                     size_t output_offset, size_t output_stride,
                                     const uint8_t *source, size_t source_length, uint8_t *output,
                                     size_t output_length, uint8_t *scratch,
                                     size_t scratch_length);

/* The bytes of scratch that a page of these sides needs: 2 * width * height + 3 * the longer side.
 * 0 where a side is not 1 to 8192: such a page is refused (10). */
size_t sotrugla_scratch_needed(size_t width, size_t height);

/* The operations and the lines that a ticket may name. Rising and falling lines are mirror images: for a
 * page and boxes flipped top to bottom with dy negated (left to right with dx negated where the vector is
 * steep), the result is the flipped result, and the work is the same. */
enum { SOTRUGLA_ERODE = 1, SOTRUGLA_DILATE = 2, SOTRUGLA_OPEN = 3, SOTRUGLA_CLOSE = 4 };
enum { SOTRUGLA_CONNECTED = 1, SOTRUGLA_PERIODIC = 2 };

/* The most boxes that a ticket may hide, and the bytes of the longest ticket: its first six fields always
 * take the same bytes, and so does each box. */
enum {
    SOTRUGLA_BOXES = 64,
    SOTRUGLA_FIELDS_BYTES_ = 30,
    SOTRUGLA_BOX_BYTES_ = 11,
    SOTRUGLA_TICKET_BYTES = SOTRUGLA_FIELDS_BYTES_ + SOTRUGLA_BOXES * SOTRUGLA_BOX_BYTES_
};

/* A ticket alone, as the numbers that sotrugla_read_ticket writes: 8 and then 4 for each of 64 box
 * places, zero past the ticket's boxes. */
struct sotrugla_ticket {
    int64_t operation, line, dx, dy, length, origin, phase;
    int64_t count; /* of boxes */
    struct {
        int64_t left, top, width, height;
    } boxes[SOTRUGLA_BOXES];
};

enum { SOTRUGLA_NUMBERS = sizeof(struct sotrugla_ticket) / sizeof(int64_t) };

/* Reads a ticket alone into the first SOTRUGLA_NUMBERS numbers of a buffer, in the order of struct
 * sotrugla_ticket; later numbers keep their values. The refusal is 0 or 1 to 9; at a refusal all the
 * numbers are 0. The work is 0. A buffer of fewer numbers is answered 100, its place the numbers needed,
 * and is not written, whatever the ticket. Boxes are not held to a page: that is for the job to do. */
struct sotrugla_outcome sotrugla_read_ticket(const uint8_t *ticket, size_t ticket_length,
                                             int64_t *numbers, size_t numbers_length);

/* sotrugla_read_ticket into a struct, which is never too short. */
static inline struct sotrugla_outcome sotrugla_read(const uint8_t *ticket, size_t ticket_length,
                                                    struct sotrugla_ticket *shown)
{
    return sotrugla_read_ticket(ticket, ticket_length, (int64_t *)shown, SOTRUGLA_NUMBERS);
}

/* Whether a box of the ticket holds the pixel at this column and row: 1 if so, else 0. Such a pixel comes
 * out white in every finished page: as 255, or as the maximum of a P5 file. A refused ticket hides nothing,
 * as it is read with no boxes. Boxes are not held to a page: that is for the job to do. Each call reads the
 * whole ticket: who asks about every pixel of a large page does better to read the boxes once, by
 * sotrugla_read. */
uint64_t sotrugla_is_hidden(const uint8_t *ticket, size_t ticket_length, size_t column, size_t row);

/* A ticket to be put: without boxes, of phase 0, its origin the middle of the segment, step length / 2. */
static inline struct sotrugla_ticket sotrugla_centred(int64_t operation, int64_t line, int64_t dx,
                                                      int64_t dy, int64_t length)
{
    struct sotrugla_ticket ticket;
    memset(&ticket, 0, sizeof ticket);
    ticket.operation = operation, ticket.line = line;
    ticket.dx = dx, ticket.dy = dy;
    ticket.length = length, ticket.origin = length / 2;
    return ticket;
}

/* Hides one more box: 1, or 0 where the ticket has no box place left. Such a ticket has a count above 64 from
 * then on and is not put: a caller who does not look at the answer gets no page on which that box shows. */
static inline int sotrugla_hide(struct sotrugla_ticket *ticket, int64_t left, int64_t top,
                                int64_t width, int64_t height)
{
    if (ticket->count < 0 || ticket->count >= SOTRUGLA_BOXES) {
        ticket->count = SOTRUGLA_BOXES + 1;
        return 0;
    }
    ticket->boxes[ticket->count].left = left, ticket->boxes[ticket->count].top = top;
    ticket->boxes[ticket->count].width = width, ticket->boxes[ticket->count].height = height;
    ticket->count++;
    return 1;
}

static inline int sotrugla_within_(int64_t number, int64_t least, int64_t most)
{
    return least <= number && number <= most;
}

/* Whether every number of the ticket has a place in its field, and every box a place in the struct. */
static inline int sotrugla_has_places_(const struct sotrugla_ticket *ticket)
{
    int so = sotrugla_within_(ticket->operation, 0, UINT8_MAX) &&
             sotrugla_within_(ticket->line, 0, UINT8_MAX) &&
             sotrugla_within_(ticket->dx, INT16_MIN, INT16_MAX) &&
             sotrugla_within_(ticket->dy, INT16_MIN, INT16_MAX) &&
             sotrugla_within_(ticket->length, 0, UINT16_MAX) &&
             sotrugla_within_(ticket->origin, 0, UINT16_MAX) &&
             sotrugla_within_(ticket->phase, 0, UINT16_MAX) &&
             sotrugla_within_(ticket->count, 0, SOTRUGLA_BOXES);
    for (int64_t k = 0; so && k < ticket->count; k++)
        so = sotrugla_within_(ticket->boxes[k].left, 0, UINT16_MAX) &&
             sotrugla_within_(ticket->boxes[k].top, 0, UINT16_MAX) &&
             sotrugla_within_(ticket->boxes[k].width, 0, UINT16_MAX) &&
             sotrugla_within_(ticket->boxes[k].height, 0, UINT16_MAX);
    return so;
}

/* Writes a field of numbers, each of one byte or of two, the higher first, and answers where it ends. */
static inline uint8_t *sotrugla_put_field_(uint8_t *at, int tag, int size, const int64_t *numbers,
                                           int count)
{
    *at++ = (uint8_t)tag;
    *at++ = 0;
    *at++ = (uint8_t)(size * count);
    for (int k = 0; k < count; k++) {
        if (size == 2)
            *at++ = (uint8_t)((uint64_t)numbers[k] >> 8);
        *at++ = (uint8_t)numbers[k];
    }
    return at;
}

/* Writes the ticket's bytes to the front of a buffer, as sotrugla_read gives them back, and answers how many.
 * Whether the values are allowed is for the proved reader to say. Where the buffer is too short, a number has
 * no place in its field, or count is not 0 to 64, the answer is 0 and nothing is written.
 * SOTRUGLA_TICKET_BYTES are always enough. */
static inline size_t sotrugla_put_ticket(const struct sotrugla_ticket *ticket, uint8_t *bytes,
                                         size_t length)
{
    const int64_t vector[] = {ticket->dx, ticket->dy};
    uint8_t *at = bytes;
    if (!sotrugla_has_places_(ticket) ||
        length < SOTRUGLA_FIELDS_BYTES_ + (size_t)ticket->count * SOTRUGLA_BOX_BYTES_)
        return 0;
    at = sotrugla_put_field_(at, 1, 1, &ticket->operation, 1);
    at = sotrugla_put_field_(at, 2, 1, &ticket->line, 1);
    at = sotrugla_put_field_(at, 3, 2, vector, 2);
    at = sotrugla_put_field_(at, 4, 2, &ticket->length, 1);
    at = sotrugla_put_field_(at, 5, 2, &ticket->origin, 1);
    at = sotrugla_put_field_(at, 6, 2, &ticket->phase, 1);
    for (int64_t k = 0; k < ticket->count; k++) {
        const int64_t box[] = {ticket->boxes[k].left, ticket->boxes[k].top, ticket->boxes[k].width,
                               ticket->boxes[k].height};
        at = sotrugla_put_field_(at, 7, 2, box, 4);
    }
    return (size_t)(at - bytes);
}

/* A raw Netpbm grey file (P5) as it is read. refusal and place are as in struct sotrugla_outcome, and at a
 * refusal the other numbers are 0. The pixel at column c, row r is byte start + r * width + c of the file,
 * and at most maximum, which is 1 to 255. */
struct sotrugla_pgm {
    uint64_t refusal, place, width, height, maximum, start;
};

/* Reads a file alone: the header of its first image, and whether its pixels keep to it.
 *   file      read only; images behind the first are not looked at
 * A header is `P5`, then width, height and maximum in decimal digits, each behind white space (blank, tab,
 * LF, CR, VT, FF), then one byte of white space; the pixels follow, a byte each. A comment before that byte,
 * from `#` through the next CR or LF, counts as nothing, even in the middle of a number.
 * Refusals, in this order:
 *   15   the header is not so, or the maximum is 0, which is at fault at its first digit
 *   16   the maximum is above 255: its first digit
 *   17   one of the first width * height pixels is above the maximum, or there are fewer
 *   10   a side is not 1 to 8192 */
struct sotrugla_pgm sotrugla_read_pgm(const uint8_t *file, size_t file_length);

/* The longest header that is written: P5, 8192, 8192 and 255, each with its newline. */
enum { SOTRUGLA_PGM_HEADER = 17 };

/* An answer, as struct sotrugla_outcome is. length is that of the written file; a refusal has 0. */
struct sotrugla_written {
    uint64_t refusal, place, work, length;
};

/* Filters the page of a file into a file of the same sides and maximum. Pixels are filtered as they are; one
 * that the ticket hides comes out as the file's maximum.
 *   ticket    read only; the job ticket's bytes
 *   file      read only, as sotrugla_read_pgm reads it
 *   output    written from its first byte on: `P5`, width, height and maximum, each with one newline, then
 *             the pixels. The bytes behind them keep their values; at a refusal nothing is written.
 *             SOTRUGLA_PGM_HEADER + width * height bytes are always enough
 *   scratch   as in sotrugla_run
 * What output and scratch held before changes nothing in the answer or the written file.
 * Refusals, in this order: the ticket's 1 to 9; the file's 15, 16, 17 and 10; 12 where the output is shorter
 * than the file to be written; 13; 14. A caller that makes room for the sides that sotrugla_read_pgm
 * answers, 0 for a refused file, never meets 12 or 13.
 * Cost: a reading of the file, and then as sotrugla_run. */
struct sotrugla_written sotrugla_run_pgm(const uint8_t *ticket, size_t ticket_length,
                                         const uint8_t *file, size_t file_length, uint8_t *output,
                                         size_t output_length, uint8_t *scratch,
                                         size_t scratch_length);

/* A job by names: a placement is hard to get wrong where every number says what it is. */
struct sotrugla_job {
    const uint8_t *ticket;
    size_t ticket_length;
    size_t width, height;
    const uint8_t *source;
    size_t source_length, source_offset, source_stride;
    uint8_t *output;
    size_t output_length, output_offset, output_stride;
    uint8_t *scratch;
    size_t scratch_length;
};

/* sotrugla_run on the job's numbers and buffers. */
static inline struct sotrugla_outcome sotrugla_run_job(const struct sotrugla_job *job)
{
    return sotrugla_run(job->ticket, job->ticket_length, job->width, job->height,
                        job->source_offset, job->source_stride, job->output_offset,
                        job->output_stride, job->source, job->source_length, job->output,
                        job->output_length, job->scratch, job->scratch_length);
}

/* The most jobs of a list, the numbers of each job and of each answer, and those of all answers. */
enum {
    SOTRUGLA_LIST_JOBS = 256,
    SOTRUGLA_JOB_NUMBERS = 8,
    SOTRUGLA_ANSWER_NUMBERS = 3,
    SOTRUGLA_LIST_ANSWERS = SOTRUGLA_LIST_JOBS * SOTRUGLA_ANSWER_NUMBERS
};

/* A job of a list, as its eight numbers. Its ticket is ticket_length bytes of the list's tickets, from
 * ticket_start on: jobs may share one. Its pages stand in the two trays that the whole list shares. */
struct sotrugla_listed_job {
    uint64_t ticket_start, ticket_length;
    uint64_t width, height;
    uint64_t source_offset, source_stride;
    uint64_t output_offset, output_stride;
};

/* Runs a list of jobs on one source tray, one output tray and one scratch. Answers, trays and scratch are those
 * of a call of sotrugla_run for each job, in list order: a refused job is answered and the rest go on.
 *   count     of the list's jobs: 0 to SOTRUGLA_LIST_JOBS
 *   jobs      read only; SOTRUGLA_JOB_NUMBERS numbers for each job, in the order of struct sotrugla_listed_job;
 *             numbers past those of the list are not looked at
 *   tickets   read only; a ticket that does not stand wholly in this buffer counts as empty: refused 1 at 0
 *   source    read only, and of it only the bytes of the jobs' pages
 *   output    written: the bytes of the finished pages, nothing else. Places may overlap: there the bytes of
 *             the last finished job stand
 *   scratch   as in sotrugla_run, for each job by itself: the largest sotrugla_scratch_needed is enough for all
 *   answers   its first SOTRUGLA_LIST_ANSWERS numbers are written: those of struct sotrugla_outcome for each
 *             job in list order, and 0 past the list; later numbers keep their values
 * What output, scratch and answers held before changes nothing in the answers or the pages.
 * Refusals of the whole list, in this order, before any job: output and scratch are not written, the work is 0.
 *   100  fewer than SOTRUGLA_LIST_ANSWERS answers: the place is SOTRUGLA_LIST_ANSWERS, no answer is written
 *   18   count is above SOTRUGLA_LIST_JOBS: the place is 0, and so are the first SOTRUGLA_LIST_ANSWERS answers
 *   100  fewer numbers of jobs than count needs: the place is the numbers needed, no answer is written
 * Otherwise the answer is 0, 0, 0: the work of each job is in its own.
 * Cost: that of the single calls, and the clearing of the answers. */
struct sotrugla_outcome sotrugla_run_tray(size_t count, const uint64_t *jobs, size_t jobs_length,
                                          const uint8_t *tickets, size_t tickets_length,
                                          const uint8_t *source, size_t source_length,
                                          uint8_t *output, size_t output_length, uint8_t *scratch,
                                          size_t scratch_length, uint64_t *answers,
                                          size_t answers_length);

/* A list by names. */
struct sotrugla_list {
    size_t count; /* of jobs */
    const struct sotrugla_listed_job *jobs;
    const uint8_t *tickets;
    size_t tickets_length;
    const uint8_t *source;
    size_t source_length;
    uint8_t *output;
    size_t output_length;
    uint8_t *scratch;
    size_t scratch_length;
};

/* sotrugla_run_tray on the list's jobs and buffers: the only refusal of the whole list is 18. answers has room
 * for every answer of the longest list. */
static inline struct sotrugla_outcome
sotrugla_run_list(const struct sotrugla_list *list,
                  struct sotrugla_outcome answers[SOTRUGLA_LIST_JOBS])
{
    return sotrugla_run_tray(list->count, (const uint64_t *)list->jobs,
                             list->count * SOTRUGLA_JOB_NUMBERS, list->tickets,
                             list->tickets_length, list->source, list->source_length, list->output,
                             list->output_length, list->scratch, list->scratch_length,
                             (uint64_t *)answers, SOTRUGLA_LIST_ANSWERS);
}

/* A job of the list by itself, its number counted from 0 and below count: sotrugla_run_job on each of them in
 * turn answers and writes what sotrugla_run_list does. */
static inline struct sotrugla_job sotrugla_single_job(const struct sotrugla_list *list,
                                                      size_t number)
{
    const struct sotrugla_listed_job *listed = list->jobs + number;
    int within = listed->ticket_start <= list->tickets_length &&
                 listed->ticket_length <= list->tickets_length - listed->ticket_start;
    struct sotrugla_job job;
    job.ticket_length = within ? listed->ticket_length : 0;
    job.ticket = job.ticket_length ? list->tickets + listed->ticket_start : NULL;
    job.width = listed->width, job.height = listed->height;
    job.source = list->source, job.source_length = list->source_length;
    job.source_offset = listed->source_offset, job.source_stride = listed->source_stride;
    job.output = list->output, job.output_length = list->output_length;
    job.output_offset = listed->output_offset, job.output_stride = listed->output_stride;
    job.scratch = list->scratch, job.scratch_length = list->scratch_length;
    return job;
}

/* Why a pixel comes out as it does. refusal and place are as in struct sotrugla_outcome, and at a refusal the
 * other numbers are 0. Columns, rows and boxes are counted from 0. What a kind does not mean is 0. */
struct sotrugla_reason {
    uint64_t refusal, place, kind, box, phase;
    uint64_t through_column, through_row, from_column, from_row;
};

/* The kinds of reasons; 2 is kept for a later kind of box.
 *   SOTRUGLA_HIDDEN_BOX   box is the number of the first box that holds the pixel, which comes out white
 *   SOTRUGLA_ONE_PASS     erosion and dilation: from is the first unhidden step of the pixel's window whose grey
 *                         is the result; through is the pixel itself
 *   SOTRUGLA_TWO_PASSES   opening and closing: through is the first unhidden step of the pixel's window in the
 *                         second pass that gives the result, and from the first unhidden step of the window of
 *                         through in the first pass that gave it
 * Steps are ordered along the vector. phase is the ticket's. The result is the source's grey at from. */
enum { SOTRUGLA_HIDDEN_BOX = 1, SOTRUGLA_ONE_PASS = 3, SOTRUGLA_TWO_PASSES = 4 };

/* Names the reason why a pixel of a job's page comes out as it does, without running the job.
 *   ticket    read only; the job ticket's bytes
 *   source    read only: of it the unhidden pixels of one line fewer than the segment's length of steps away
 * Nothing is written: of output and scratch the job is asked for their lengths alone.
 * Refusals: those of sotrugla_run for such a job, then 19 where the column is not below the width or the row not
 * below the height, with place 0.
 * Cost: a reading of the ticket, and then a time that grows with the segment's length for erosion and dilation,
 * with its square for opening and closing. */
struct sotrugla_reason sotrugla_why(const uint8_t *ticket, size_t ticket_length, size_t width,
                                    size_t height, size_t source_offset, size_t source_stride,
                                    size_t output_offset, size_t output_stride,
                                    const uint8_t *source, size_t source_length,
                                    size_t output_length, size_t scratch_length, size_t column,
                                    size_t row);

/* sotrugla_why on the job's numbers and source. Its output and scratch may be NULL whatever their lengths: a job
 * that was run may be asked about as it stands, and one of a list by sotrugla_single_job. */
static inline struct sotrugla_reason sotrugla_why_job(const struct sotrugla_job *job, size_t column,
                                                      size_t row)
{
    return sotrugla_why(job->ticket, job->ticket_length, job->width, job->height,
                        job->source_offset, job->source_stride, job->output_offset,
                        job->output_stride, job->source, job->source_length, job->output_length,
                        job->scratch_length, column, row);
}

/* The same for a pixel of a file's page, which sotrugla_run_pgm filters. The result is the file's grey at from; a
 * hidden pixel comes out as the file's maximum.
 * Refusals, in this order: the ticket's 1 to 9; the file's 15, 16, 17 and 10; 14; 19.
 * Cost: a reading of the file, and then as sotrugla_why. */
static inline struct sotrugla_reason sotrugla_why_pgm(const uint8_t *ticket, size_t ticket_length,
                                                      const uint8_t *file, size_t file_length,
                                                      size_t column, size_t row)
{
    struct sotrugla_pgm shown = sotrugla_read_pgm(file, file_length);
    /* A refused file has sides of 0: then the ticket is refused if it is to be, and else the sides. */
    struct sotrugla_reason reason =
        sotrugla_why(ticket, ticket_length, shown.width, shown.height, shown.start, shown.width, 0,
                     shown.width, file, file_length, shown.width * shown.height,
                     sotrugla_scratch_needed(shown.width, shown.height), column, row);
    if (reason.refusal == SOTRUGLA_BAD_SIDES)
        reason.refusal = shown.refusal, reason.place = shown.place;
    return reason;
}

/* A refusal in a sentence for an operator; the place stands beside it in the outcome. */
static inline const char *sotrugla_sentence(uint64_t refusal)
{
    static const char *const sentences[] = {
        "the page is finished",
        "the ticket ends inside a field, or before one of its first six fields",
        "a field has another tag than the one due",
        "a field has the wrong length",
        "the operation or the line is unknown",
        "the ticket has more than 64 hidden boxes",
        "the vector is not allowed",
        "the segment length is 0 or above 8192",
        "the origin is not below the segment length",
        "the phase is not allowed",
        "a side is not 1 to 8192, or a stride is not from the width to 16384",
        "the source page does not fit its tray",
        "the output page does not fit its tray",
        "the scratch is too short",
        "a hidden box has a zero side or passes the page's edge",
        "the file is no raw grey Netpbm file (P5), its header is damaged, or its maximum is 0",
        "the file's maximum is above 255",
        "a pixel of the file is above its maximum, or the file has too few pixels",
        "the list has more than 256 jobs",
        "the pixel is off the page",
    };
    if (refusal == SOTRUGLA_NUMBERS_TOO_FEW)
        return "the buffer of numbers is too short";
    return refusal < sizeof sentences / sizeof *sentences ? sentences[refusal] : "unknown refusal";
}

/* The four functions below are sotrugla_sentence for an answer to what they are handed, but say which rule
 * of a vector (6), or which number of a placement (10), is at fault. Each sentence stands whole on one line,
 * so that a search finds it. */

/* A component of the vector: two bytes, the higher first, in two's complement. */
static inline int sotrugla_component_(const uint8_t *bytes)
{
    return (bytes[0] ^ 128) * 256 + bytes[1] - 32768;
}

/* For a vector that the proved reader refused: so the last rule is broken if no other is. */
static inline const char *sotrugla_vector_sentence_(int dx, int dy)
{
    int dx_size = dx < 0 ? -dx : dx, dy_size = dy < 0 ? -dy : dy;
    if (dx == 0 && dy == 0)
        return "the vector is 0, 0 and has no direction";
    if (dx_size > 255 || dy_size > 255)
        return "a component of the vector is beyond -255 to 255";
    if (dx < dy_size && dy <= dx_size)
        return "the vector is neither shallow (dx at least the size of dy) nor steep (dy above the size of dx)";
    return "dx and dy of a connected line have a common divisor above 1";
}

/* For sotrugla_read_ticket and sotrugla_read. A ticket that is refused for its vector has at least the 15
 * bytes through its vector's end. */
static inline const char *sotrugla_ticket_sentence(uint64_t refusal, const uint8_t *ticket,
                                                   size_t ticket_length)
{
    if (refusal == SOTRUGLA_BAD_VECTOR && ticket_length >= 15)
        return sotrugla_vector_sentence_(sotrugla_component_(ticket + 11),
                                         sotrugla_component_(ticket + 13));
    return sotrugla_sentence(refusal);
}

/* For sotrugla_run_job and sotrugla_why_job, and for sotrugla_run and sotrugla_why by a job of their numbers. */
static inline const char *sotrugla_job_sentence(uint64_t refusal, const struct sotrugla_job *job)
{
    if (refusal != SOTRUGLA_BAD_SIDES)
        return sotrugla_ticket_sentence(refusal, job->ticket, job->ticket_length);
    if (job->width < 1 || job->width > 8192)
        return "the width is not 1 to 8192";
    if (job->height < 1 || job->height > 8192)
        return "the height is not 1 to 8192";
    if (job->source_stride < job->width || job->source_stride > 16384)
        return "the source stride is not from the width to 16384";
    return "the output stride is not from the width to 16384";
}

/* For sotrugla_run_list, and for sotrugla_run_tray by a list of its buffers: the sentence of the answer to one
 * job, its number counted from 0. The answer to the whole list has its sentence from sotrugla_sentence. */
static inline const char *sotrugla_listed_sentence(uint64_t refusal,
                                                   const struct sotrugla_list *list, size_t number)
{
    struct sotrugla_job job = sotrugla_single_job(list, number);
    return sotrugla_job_sentence(refusal, &job);
}

/* For sotrugla_run_pgm and sotrugla_why_pgm, and with NULL and 0 for sotrugla_read_pgm. */
static inline const char *sotrugla_file_sentence(uint64_t refusal, const uint8_t *ticket,
                                                 size_t ticket_length)
{
    if (refusal == SOTRUGLA_BAD_SIDES)
        return "a side of the file's page is not 1 to 8192";
    return sotrugla_ticket_sentence(refusal, ticket, ticket_length);
}

/* The bytes of the longest sentence, with the zero behind it. */
enum { SOTRUGLA_SENTENCE_BYTES = 256 };

/* The sentence of a hidden pixel: of the ticket's box of this number. */
static inline int sotrugla_put_hidden_(char *text, size_t length, size_t column, size_t row,
                                       uint64_t box, const uint8_t *ticket, size_t ticket_length)
{
    struct sotrugla_ticket order;
    sotrugla_read(ticket, ticket_length, &order);
    return snprintf(text, length,
                    "column %llu, row %llu is white because it is hidden by box %d: "
                    "left %d, top %d, width %d, height %d",
                    (unsigned long long)column, (unsigned long long)row, (int)box,
                    (int)order.boxes[box].left, (int)order.boxes[box].top,
                    (int)order.boxes[box].width, (int)order.boxes[box].height);
}

/* The sentence of any other pixel; grey is what it comes out as, which is the source's at from. The way is told
 * unless it is from itself. */
static inline int sotrugla_put_decided_(char *text, size_t length, size_t column, size_t row,
                                        const struct sotrugla_reason *reason, int grey)
{
    char from[SOTRUGLA_SENTENCE_BYTES] = "it", through[SOTRUGLA_SENTENCE_BYTES] = "";
    int itself = reason->from_column == column && reason->from_row == row;
    int direct = reason->through_column == reason->from_column &&
                 reason->through_row == reason->from_row;
    if (!itself)
        snprintf(from, sizeof from, "column %llu, row %llu", (unsigned long long)reason->from_column,
                 (unsigned long long)reason->from_row);
    if (reason->kind == SOTRUGLA_TWO_PASSES && !direct)
        snprintf(through, sizeof through, ", by way of column %llu, row %llu",
                 (unsigned long long)reason->through_column,
                 (unsigned long long)reason->through_row);
    return snprintf(text, length, "column %llu, row %llu is %d because %s is %d%s%s",
                    (unsigned long long)column, (unsigned long long)row, grey, from, grey,
                    itself ? " itself" : "", through);
}

/* Writes what sotrugla_why_job answered for this job, column and row as a sentence for an operator; that of a
 * refusal is sotrugla_job_sentence.
 *   text      written as snprintf writes: as much of the sentence as has room, and a zero behind it.
 *             SOTRUGLA_SENTENCE_BYTES are always enough; where length is 0 nothing is written
 * Answers the bytes of the whole sentence without the zero. */
static inline int sotrugla_job_reason(const struct sotrugla_reason *reason,
                                      const struct sotrugla_job *job, size_t column, size_t row,
                                      char *text, size_t length)
{
    if (reason->refusal)
        return snprintf(text, length, "%s", sotrugla_job_sentence(reason->refusal, job));
    if (reason->kind == SOTRUGLA_HIDDEN_BOX)
        return sotrugla_put_hidden_(text, length, column, row, reason->box, job->ticket,
                                    job->ticket_length);
    return sotrugla_put_decided_(text, length, column, row, reason,
                                 job->source[job->source_offset +
                                             reason->from_row * job->source_stride +
                                             reason->from_column]);
}

/* The same for sotrugla_why_pgm; the sentence of a refusal is sotrugla_file_sentence. */
static inline int sotrugla_file_reason(const struct sotrugla_reason *reason, const uint8_t *ticket,
                                       size_t ticket_length, const uint8_t *file,
                                       size_t file_length, size_t column, size_t row, char *text,
                                       size_t length)
{
    struct sotrugla_pgm shown = sotrugla_read_pgm(file, file_length);
    if (reason->refusal)
        return snprintf(text, length, "%s",
                        sotrugla_file_sentence(reason->refusal, ticket, ticket_length));
    if (reason->kind == SOTRUGLA_HIDDEN_BOX)
        return sotrugla_put_hidden_(text, length, column, row, reason->box, ticket, ticket_length);
    return sotrugla_put_decided_(
        text, length, column, row, reason,
        file[shown.start + reason->from_row * shown.width + reason->from_column]);
}

#ifdef __cplusplus
}
#endif

#endif
