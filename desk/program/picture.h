/* The picture of a window: a table a month, a row a day, a column a half-hour, drawn as SVG. */
#ifndef PICTURE_H
#define PICTURE_H

#include "window.h"

/* An energy in kWh, as 27.06. */
void print_kwh(uint64_t units);

/* A half-hour's beginning, as 07:30; 24:00 for COP6_HALVES. */
void print_clock(uint32_t half);

/* Where a half-hour begins, as hundredths of a per cent of a day's width. */
uint32_t share_before(uint32_t half);

/* The first cell of a day's row: its date and weekday; and the row's tag before it. */
void begin_row(uint32_t day);

/* The hours over a table's drawings. */
void draw_hours(void);

/* The signs and the pattern that the drawings and the legend use; each page has them once, before the first use. */
void draw_signs(void);

/* A row a month: which of its days are held, its energy, what is missing. */
void draw_overview(const struct window *w);

void draw_months(const struct window *w);

#endif
