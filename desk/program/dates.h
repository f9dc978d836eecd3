/* Numbers and dates as the command line and the output have them; a day is the library's number of it. */
#ifndef DATES_H
#define DATES_H

#include "cop6.h"

#include <stdint.h>

#define SECONDS_OF_DAY 86400
#define SECONDS_OF_HALF (SECONDS_OF_DAY / COP6_HALVES)

/* A number of digits alone, at most nine of them; -1 where it is none. */
int number(const char *text, uint32_t *n);

/* The day of a date YYMMDD; where there is none, says so. */
int date(const char *text, uint32_t *day);

/* Prints the date of a day as 2024-02-29. */
void print_date(uint32_t day);

#endif
