// Buffers that a host lends the library to be read alone: each ends where nobody may look any further, and none of its
// bytes may be written. Who does either ends the program by a signal.

#ifndef FENCED_H
#define FENCED_H

// A mapping without a file is not in the C standard; this must come before the first of its headers.
#define _DEFAULT_SOURCE

#include <stdint.h>
#include <stdio.h>
#include <stdlib.h>
#include <sys/mman.h>
#include <unistd.h>

// A lent buffer, and what is mapped for it and for the fences before and behind.
struct fenced {
    uint8_t *bytes, *mapping;
    size_t length, room;
};

// A buffer with bytes from standard input. What its first page has before them may be read, as pages are whole.
static struct fenced fence(size_t length)
{
    size_t page = sysconf(_SC_PAGESIZE), held = (length + page - 1) / page * page;
    size_t room = page + held + page;
    uint8_t *mapping = mmap(NULL, room, PROT_READ | PROT_WRITE, MAP_PRIVATE | MAP_ANONYMOUS, -1, 0);
    if (mapping == MAP_FAILED)
        abort();
    uint8_t *end = mapping + page + held;
    if (fread(end - length, 1, length, stdin) != length)
        abort();
    if (mprotect(mapping, page, PROT_NONE) || mprotect(mapping + page, held, PROT_READ) ||
        mprotect(end, page, PROT_NONE))
        abort();
    return (struct fenced){end - length, mapping, length, room};
}

static void take_down(struct fenced fenced)
{
    munmap(fenced.mapping, fenced.room);
}

#endif
