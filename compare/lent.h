// Buffers that a host lends the library: each between margins, with a copy of it as it was, so that
// every byte that may not be written is held to its old value.

#ifndef LENT_H
#define LENT_H

#include <stdint.h>
#include <stdio.h>
#include <stdlib.h>
#include <string.h>

// Bytes on each side of a lent buffer that nobody may write.
enum { MARGIN = 64 };

// A lent buffer and a copy of it as it was, both between margins.
struct lent {
    const char *name;
    uint8_t *bytes, *copy;
    size_t length;
};

// A buffer with bytes from standard input.
static struct lent lend(const char *name, size_t length)
{
    size_t room = MARGIN + length + MARGIN;
    uint8_t *bytes = malloc(room), *copy = malloc(room);
    if (!bytes || !copy)
        abort();
    memset(bytes, 0xA5, room);
    if (fread(bytes + MARGIN, 1, length, stdin) != length)
        abort();
    memcpy(copy, bytes, room);
    return (struct lent){name, bytes + MARGIN, copy + MARGIN, length};
}

// A buffer of numbers. Memory from malloc starts where any number may, and so does what follows a
// margin of whole numbers.
static inline struct lent lend_numbers(const char *name, size_t count)
{
    return lend(name, count * sizeof(uint64_t));
}

static inline uint64_t *numbers_of(struct lent lent)
{
    return (uint64_t *)lent.bytes;
}

static void print_wrong(struct lent lent, int read_only)
{
    if (read_only && memcmp(lent.bytes, lent.copy, lent.length) != 0)
        printf(" %s changed", lent.name);
    if (memcmp(lent.bytes - MARGIN, lent.copy - MARGIN, MARGIN) != 0 ||
        memcmp(lent.bytes + lent.length, lent.copy + lent.length, MARGIN) != 0)
        printf(" margin of %s changed", lent.name);
}

static void print_hex(struct lent lent)
{
    printf(" %s ", lent.name);
    for (size_t at = 0; at < lent.length; at++) {
        putchar("0123456789abcdef"[lent.bytes[at] >> 4]);
        putchar("0123456789abcdef"[lent.bytes[at] & 15]);
    }
}

static void take_back(struct lent lent)
{
    free(lent.bytes - MARGIN);
    free(lent.copy - MARGIN);
}

// Ends a job's line with what was wrongly changed and with the later bytes of the buffers that are
// written, and takes all four back. The line leaves at once, so that the lines before a crash are
// seen.
static void end_line(struct lent ticket, struct lent source, struct lent output,
                     struct lent scratch)
{
    print_wrong(ticket, 1);
    print_wrong(source, 1);
    print_wrong(output, 0);
    print_wrong(scratch, 0);
    print_hex(output);
    print_hex(scratch);
    printf("\n");
    fflush(stdout);
    take_back(ticket);
    take_back(source);
    take_back(output);
    take_back(scratch);
}

#endif
