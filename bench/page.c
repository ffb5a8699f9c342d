#include "page.h"

#include <stdio.h>
#include <stdlib.h>
#include <string.h>
#include <sys/mman.h>

uint8_t *room(size_t length)
{
    uint8_t *bytes = mmap(NULL, length, PROT_READ | PROT_WRITE, MAP_PRIVATE | MAP_ANONYMOUS, -1, 0);
    if (bytes == MAP_FAILED) {
        fprintf(stderr, "out of memory\n");
        exit(2);
    }
    memset(bytes, WHITE, length);
    return bytes;
}

void leave(uint8_t *bytes, size_t length)
{
    munmap(bytes, length);
}

struct page blank_page(size_t width, size_t height)
{
    return (struct page){width, height, room(width * height)};
}

void leave_page(struct page *page)
{
    leave(page->pixels, page_bytes(page));
}

/* Marsaglia's xorshift: the pages are the same on every machine. */
static uint64_t chance(uint64_t *state)
{
    *state ^= *state << 13;
    *state ^= *state >> 7;
    *state ^= *state << 17;
    return *state >> 11;
}

static size_t between(uint64_t *state, size_t least, size_t most)
{
    return least + chance(state) % (most - least + 1);
}

static void draw_bar(struct page *page, size_t left, size_t top, size_t width, size_t height,
                     uint8_t grey)
{
    for (size_t row = top; row < top + height && row < page->height; row++)
        for (size_t column = left; column < left + width && column < page->width; column++)
            page->pixels[row * page->width + column] = grey;
}

/* A letter of the size of 12 points at 300 dpi: a few strokes, upright or level, not quite black. */
static void draw_letter(struct page *page, uint64_t *state, size_t left, size_t top)
{
    for (size_t strokes = between(state, 2, 4); strokes; strokes--) {
        size_t thick = between(state, 3, 5);
        uint8_t grey = (uint8_t)between(state, 0, 70);
        if (chance(state) % 2)
            draw_bar(page, left + between(state, 0, 15), top, thick, between(state, 15, 34), grey);
        else
            draw_bar(page, left, top + between(state, 0, 30), between(state, 8, 20), thick, grey);
    }
}

void draw_text(struct page *page)
{
    enum { MARGIN = 100, LINE = 60, LETTER = 26, RULES = 400 };
    uint64_t state = 88172645463325252u;
    memset(page->pixels, WHITE, page_bytes(page));
    for (size_t top = MARGIN; top + MARGIN < page->height; top += LINE)
        for (size_t left = MARGIN; left + MARGIN < page->width; left += LETTER)
            if (chance(&state) % 6) /* else a blank between words */
                draw_letter(page, &state, left, top);
    for (size_t at = RULES; at + MARGIN < page->height; at += RULES)
        draw_bar(page, MARGIN, at, page->width - 2 * MARGIN, 3, 20);
    for (size_t at = RULES; at + MARGIN < page->width; at += 2 * RULES)
        draw_bar(page, at, MARGIN, 3, page->height - 2 * MARGIN, 20);
    for (size_t dust = page_bytes(page) / 2000; dust; dust--)
        draw_bar(page, chance(&state) % page->width, chance(&state) % page->height, 1, 1, 90);
}

void draw_noise(struct page *page)
{
    uint64_t state = 2463534242u;
    for (size_t at = 0; at < page_bytes(page); at++)
        page->pixels[at] = (uint8_t)chance(&state);
}

void draw_salt(struct page *page)
{
    uint64_t state = 521288629u;
    for (size_t at = 0; at < page_bytes(page); at++)
        page->pixels[at] = chance(&state) % 4 == 0;
}
