/* The rates of a week, as a page has them. */
#ifndef RATES_H
#define RATES_H

#include "table.h"

/* A row a day, a cell a half-hour; under it the day types in words. */
void draw_rates(const struct week *w);

#endif
