/* The window of a ledger in numbers, and the scale of its shades. */
#include "window.h"

static int take_day(const uint8_t *ledger, size_t length, uint32_t number, struct day *d) {
    uint64_t x[COP6_SUMMARY];
    uint64_t summary = cop6_summary(ledger, length, number, x, COP6_SUMMARY);
    uint64_t halves = cop6_halves(ledger, length, number, d->half, COP6_HALVES);
    uint64_t flags = cop6_flags(ledger, length, number);
    if (COP6_ANSWER(summary) != COP6_DONE || COP6_ANSWER(halves) != COP6_DONE || COP6_ANSWER(flags) != COP6_DONE)
        return -1;
    d->number = number;
    d->held = x[COP6_HELD] != 0;
    d->k = COP6_CARRIED(halves);
    d->flags = COP6_CARRIED(flags);
    d->advance = x[COP6_ADVANCE];
    return 0;
}

/* How many half-hours have more energy than so many units. */
static uint32_t above(const struct window *w, uint32_t units) {
    uint32_t n = 0;
    for (uint32_t i = 0; i < w->days; i++)
        for (uint32_t j = 0; j < w->day[i].k; j++)
            n += COP6_HALF_ADVANCE(w->day[i].half[j]) > units;
    return n;
}

/* The least round step with which at most 3 in 100 half-hours of energy lie above the scale: so a few large ones do not press the others into one shade. */
static uint32_t choose_step(const struct window *w) {
    static const uint16_t steps[] = {1,   2,   3,   4,   5,   6,   8,   10,  12,  15,  20,  25,  30,  40,
                                     50,  60,  80,  100, 120, 150, 200, 250, 300, 400, 500, 600, 800, 1000};
    uint32_t some = above(w, 0);
    for (size_t i = 0; i < sizeof steps / sizeof steps[0]; i++)
        if (100 * above(w, SHADES * (uint32_t)steps[i]) <= 3 * some)
            return steps[i];
    return COP6_VALUE_ROUND / SHADES; /* over all advances */
}

int take_window(const uint8_t *ledger, size_t length, struct window *w) {
    uint64_t r = cop6_window(ledger, length);
    if (COP6_ANSWER(r) != COP6_DONE || COP6_ANSWER(cop6_identifier(ledger, length, (uint8_t *)w->identifier, COP6_IDENTIFIER)) != COP6_DONE)
        return -1;
    w->identifier[COP6_IDENTIFIER] = '\0';
    w->days = COP6_COUNT(r);
    w->held = w->largest = w->largest_i = w->largest_j = 0;
    w->advance = 0;
    for (uint32_t i = 0; i < w->days; i++) {
        struct day *d = &w->day[i];
        if (take_day(ledger, length, COP6_FIRST(r) + i, d) != 0)
            return -1;
        w->held += d->k;
        w->advance += d->advance;
        for (uint32_t j = 0; j < d->k; j++)
            if (w->largest < COP6_HALF_ADVANCE(d->half[j])) {
                w->largest = COP6_HALF_ADVANCE(d->half[j]);
                w->largest_i = i;
                w->largest_j = j;
            }
    }
    w->step = choose_step(w);
    return 0;
}

uint32_t shade_of(const struct window *w, uint32_t advance) {
    uint32_t shade = advance == 0 ? 0 : 1 + (advance - 1) / w->step;
    return shade < SHADES ? shade : SHADES;
}
