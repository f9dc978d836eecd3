/* What the page of a ledger, with a table's week or without, must say, reckoned from the library's answers and the C library's dates: a line for each saying. */
#ifndef PAGE_DUE_H
#define PAGE_DUE_H

#include <stddef.h>
#include <stdint.h>

enum { MOST_BYTES = 1 << 23, SHADES = 8 };

struct lines {
    char at[MOST_BYTES];
    size_t length;
};

/* The ranges of the page's shades, in units of 10 Wh, as its legend gives them. */
struct scale {
    unsigned low[SHADES], high[SHADES], shades;
};

/* A table, and the first day of its week. */
struct tariff {
    const uint8_t *table;
    size_t length;
    uint32_t day;
};

#define CLOCK "%02u:%02u"
#define TIME(half) (half) / 2, (half) % 2 * 30
#define SHARE "%u.%02u%%"
#define OF_100(x) (unsigned)((x) / 100), (unsigned)((x) % 100)

/* Says on standard error what is wrong and ends the program with 1. */
void fail(const char *what) __attribute__((noreturn));

void add(struct lines *to, const char *format, ...) __attribute__((format(printf, 2, 3)));

/* An answer, which must be COP6_DONE. */
uint64_t sure(uint64_t r);

/* A day's date in a format of strftime; the last two answers stay as they are. */
const char *date(uint32_t day, const char *format);

/* Where a half-hour begins, in hundredths of a per cent of a day's width, and the hours that stand over a table. */
unsigned share_before(unsigned half);
void due_hours(struct lines *to);

/* The lines of a page, of which those of a table's week are a part where there is one, else NULL. */
void reckon(const uint8_t *ledger, size_t length, const struct tariff *tariff, const struct scale *scale, struct lines *due);
void reckon_rates(const struct tariff *tariff, struct lines *due);

#endif
