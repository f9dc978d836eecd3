/* The window of a ledger, taken out of it through the library's calls: what a page says of it, day by day and as a whole. */
#ifndef WINDOW_H
#define WINDOW_H

#include "cop6.h"

#include <stddef.h>
#include <stdint.h>

struct day {
    uint32_t number;
    int held;
    uint32_t k; /* half-hours held, from the first on */
    uint32_t flags;
    uint64_t advance;
    uint64_t half[COP6_HALVES];
};

/* Shades of energy: SHADES of them over a range of `step` units each, the last one open; 0 is for no energy. */
enum { SHADES = 8 };

struct window {
    char identifier[COP6_IDENTIFIER + 1];
    uint32_t days;
    struct day day[COP6_MOST_DAYS];
    uint32_t held;      /* half-hours held of the whole window, */
    uint64_t advance;   /* and their energy */
    uint32_t largest;   /* the largest half-hour's advance, where one is above 0: */
    uint32_t largest_i; /* the first such half-hour's place in the window's days, */
    uint32_t largest_j; /* and in that day */
    uint32_t step;
};

/* Takes the window out of a ledger; -1 where the library refuses it. */
int take_window(const uint8_t *ledger, size_t length, struct window *w);

uint32_t shade_of(const struct window *w, uint32_t advance);

#endif
