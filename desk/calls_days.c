/* The calls on days and dates, with cases reckoned by hand. */
#include "calls.h"

void days(void) {
    IS(cop6_day(240229), DAY);
    IS(cop6_date(DAY), 240229);
    IS(cop6_day(230229), COP6_NO_DAY);
    IS(cop6_day(101), 0);
    IS(cop6_date(0), 101);
    IS(cop6_day(991231), 36524);
    IS(cop6_date(LAST_DAY + 1), 0);
    IS(cop6_day(1240229), COP6_NO_DAY);
}

/* A day and its date, both ways, where a new year or a leap day is near. */
void dates(void) {
    static const struct {
        uint32_t day, date;
    } known[] = {{58, 228}, {59, 229}, {60, 301}, {365, 1231}, {366, 10101}, {1460, 31231}, {1461, 40101}, {8826, 240301}, {36159, 981231}, {LAST_DAY, 991231}};
    for (size_t i = 0; i < sizeof known / sizeof *known; i++) {
        IS(cop6_date(known[i].day), known[i].date);
        IS(cop6_day(known[i].date), known[i].day);
    }
}

/* Every day of the hundred years there and back against a walk from one date to the next; a date past a month's end is none. */
void every_date(void) {
    static const uint32_t lengths[] = {31, 28, 31, 30, 31, 30, 31, 31, 30, 31, 30, 31};
    uint32_t day = 0;
    for (uint32_t year = 0; year < 100; year++)
        for (uint32_t month = 1; month <= 12; month++) {
            uint32_t before = year * 10000 + month * 100, length = lengths[month - 1] + (month == 2 && year % 4 == 0);
            IS(cop6_day(before), COP6_NO_DAY);
            for (uint32_t date = before + 1; date <= before + length; date++, day++) {
                IS(cop6_date(day), date);
                IS(cop6_day(date), day);
            }
            IS(cop6_day(before + length + 1), COP6_NO_DAY);
        }
    IS(day, LAST_DAY + 1);
    IS(cop6_date(day), 0);
    IS(cop6_day(1000101), COP6_NO_DAY);
}
