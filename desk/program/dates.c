/* What is a date is the library's to say: here are digits alone. */
#include "dates.h"

#include "cop6.h"
#include "say.h"

#include <inttypes.h>
#include <stdio.h>
#include <stdlib.h>
#include <string.h>

int number(const char *text, uint32_t *n) {
    size_t length = strlen(text);
    if (length == 0 || length > 9 || strspn(text, "0123456789") != length)
        return -1;
    *n = (uint32_t)strtoul(text, NULL, 10);
    return 0;
}

int date(const char *text, uint32_t *day) {
    uint32_t digits;
    if (strlen(text) != 6 || number(text, &digits) != 0)
        return trouble("%s: not a date YYMMDD", text);
    *day = cop6_day(digits);
    return *day == COP6_NO_DAY ? trouble("%s: no such date", text) : DONE;
}

void print_date(uint32_t day) {
    uint32_t digits = cop6_date(day);
    printf("20%02" PRIu32 "-%02" PRIu32 "-%02" PRIu32, digits / 10000, digits / 100 % 100, digits % 100);
}
