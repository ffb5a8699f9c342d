#include "memory.h"

#include <string.h>

#include "program.h"

enum { COPIES = 20 };
static const size_t ARENA = (size_t)1 << 29;

/* The compiler may not drop a copy that nobody reads. */
static void *(*volatile copy)(void *, const void *, size_t) = memcpy;

static double timed_copy(uint8_t *to, const uint8_t *from, size_t length)
{
    double began = cpu_seconds();
    copy(to, from, length);
    return cpu_seconds() - began;
}

double copy_in_place(const struct page *page)
{
    uint8_t *to = room(page_bytes(page));
    double best = 1e9;
    for (int time = 0; time < COPIES; time++)
        best = least(best, timed_copy(to, page->pixels, page_bytes(page)));
    leave(to, page_bytes(page));
    return best;
}

double copy_in_turn(const struct page *page)
{
    size_t length = page_bytes(page), places = ARENA / length;
    uint8_t *arena = room(ARENA);
    double best = 1e9;
    for (size_t time = 0; time < COPIES; time++) {
        size_t place = 2 * time % (places - 1);
        best = least(best, timed_copy(arena + (place + 1) * length, arena + place * length, length));
    }
    leave(arena, ARENA);
    return best;
}
