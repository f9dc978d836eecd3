/* Seven days of a tariff switching table, which is a file, as the library writes them. */
#ifndef TABLE_H
#define TABLE_H

#include "cop6.h"

#include <stddef.h>
#include <stdint.h>

/* The text begins with a line for each day, of which the parts stand at these places; a line for each day type used follows. */
enum { WEEK_DAYS = 7, LINE_TYPE = 9, LINE_HALVES = 11, LINE = LINE_HALVES + COP6_HALVES + 1 };

struct week {
    uint32_t day; /* the first */
    char text[COP6_WEEK_BYTES + 1]; /* a byte 0 behind it */
    size_t length;
};

/* Reads the table and takes the week from a day on out of it; where the file can't be read, or the library refuses it, says so. */
int read_week(const char *path, uint32_t day, struct week *w);

#endif
