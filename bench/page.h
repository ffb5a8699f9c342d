/* Pages to be filtered, without padding: the pixel at column c, row r is byte r * width + c. */
#ifndef BENCH_PAGE_H
#define BENCH_PAGE_H

#include <stddef.h>
#include <stdint.h>

enum { BLACK = 0, WHITE = 255 };

struct page {
    size_t width, height;
    uint8_t *pixels;
};

static inline size_t page_bytes(const struct page *page)
{
    return page->width * page->height;
}

/* Fresh bytes from the system, already in memory, so that no timed call is the first to touch them. */
uint8_t *room(size_t length);
void leave(uint8_t *bytes, size_t length);

struct page blank_page(size_t width, size_t height);
void leave_page(struct page *page);

/* Each draws the same page at every run. */
void draw_text(struct page *page);  /* white, with text-like specks and long rules */
void draw_noise(struct page *page); /* every byte by chance */
void draw_salt(struct page *page);  /* 0, and with probability 0.25 a 1, as in document 001 */

#endif
