/* Leptonica's van Herk filters, along rows and columns only: pixErodeGray and pixOpenGray with a brick
 * of one pixel's width. A call makes its own output page; the memory is what the last one gave back. */
#include "program.h"

#include <allheaders.h>

static PIX *held, *made;

static const char *version(void)
{
    static char shown[32];
    snprintf(shown, sizeof shown, "%d.%d.%d", LIBLEPT_MAJOR_VERSION, LIBLEPT_MINOR_VERSION,
             LIBLEPT_PATCH_VERSION);
    return shown;
}

static bool serves(struct order order)
{
    return !order.boxes && (order.slope.dx == 0 || order.slope.dy == 0);
}

static void take(const struct page *page)
{
    pixDestroy(&held);
    pixDestroy(&made);
    held = pixCreate((l_int32)page->width, (l_int32)page->height, 8);
    for (size_t row = 0; row < page->height; row++)
        for (size_t column = 0; column < page->width; column++)
            SET_DATA_BYTE(pixGetData(held) + row * (size_t)pixGetWpl(held), column,
                          page->pixels[row * page->width + column]);
}

static double filter(struct order order)
{
    int across = order.slope.dy ? 1 : order.length, down = order.slope.dy ? order.length : 1;
    pixDestroy(&made);
    double began = cpu_seconds();
    made = order.operation == ERODE ? pixErodeGray(held, across, down)
                                    : pixOpenGray(held, across, down);
    return cpu_seconds() - began;
}

static void give(uint8_t *pixels)
{
    for (int row = 0; row < pixGetHeight(made); row++)
        for (int column = 0; column < pixGetWidth(made); column++)
            *pixels++ = GET_DATA_BYTE(pixGetData(made) + row * pixGetWpl(made), column);
}

const struct program leptonica = {"Leptonica", version, false, serves, take, filter, give};
