/* What a page must say of a table's week: the rates are the library's answers minute by minute, the switching times those in the table's bytes, and the day types
 * those in the library's text. */
#include "page_due.h"

#include "cop6.h"
#include "layout.h"

#include <stdio.h>

enum { MINUTES_OF_DAY = 1440, HALF_MINUTES = MINUTES_OF_DAY / COP6_HALVES, DAYS_OF_WEEK = 7, CELL = 193 };
enum { LINE = 60, LINE_TYPE = 9 }; /* of a day in the library's text, and its day type in it */

static const struct tariff *tariff;
static struct lines *due;

/* When a day type switches, in words. */
static void switchings(unsigned type, char *to, size_t room) {
    size_t length = 0;
    for (unsigned minute = 0; minute < MINUTES_OF_DAY; minute++)
        for (const uint8_t *s = tariff->table; s < tariff->table + tariff->length; s += SLOT_BYTES)
            if (s[SLOT_ENTRY] == ENTRY_SWITCHING && s[SLOT_TYPE] == type && s[SLOT_THIRD] * 60u + s[SLOT_FOURTH] == minute)
                length += (size_t)snprintf(to + length, room - length, "%srate %u from %02u:%02u", length > 0 ? ", " : "", s[SLOT_FIFTH], minute / 60,
                                           minute % 60);
}

/* The rate of a half-hour; 0 where it changes inside. */
static unsigned rate_of(uint32_t day, unsigned half) {
    unsigned rate = 0;
    for (unsigned minute = 0; minute < HALF_MINUTES; minute++) {
        unsigned is = COP6_CARRIED(sure(cop6_table_rate(tariff->table, tariff->length, ((uint64_t)day * MINUTES_OF_DAY + half * HALF_MINUTES + minute) * 60)));
        if (minute > 0 && is != rate)
            return 0;
        rate = is;
    }
    return rate;
}

/* A half-hour's cell, and the figure in it where the rate is another than before; 0 is no rate, and stands for a change inside. */
static void due_half(uint32_t day, unsigned half, unsigned rate, unsigned before) {
    const char *class = rate == 0 ? "changes" : "r", *says = rate == 0 ? "the rate changes" : "rate ";
    char figure[12] = "";
    if (rate != 0)
        snprintf(figure, sizeof figure, "%u", rate);
    add(due, "rect %s%s " SHARE " " SHARE " %s " CLOCK " to " CLOCK ": %s%s", class, figure, OF_100(share_before(half)), OF_100(CELL), date(day, "%F"),
        TIME(half), TIME(half + 1), says, figure);
    if (rate == 0 || rate != before)
        add(due, "hour " SHARE " %s", OF_100(share_before(half) + CELL / 2), rate == 0 ? "+" : figure);
}

static void due_rates(uint32_t day, unsigned type) {
    char words[2048];
    switchings(type, words, sizeof words);
    add(due, "row %s %s", *date(day, "%u") >= '6' ? "day weekend" : "day", date(day, "%F %a"));
    add(due, "label %s: %s", date(day, "%F"), words);
    for (unsigned half = 0, rate, before = 0; half < COP6_HALVES; half++, before = rate) {
        rate = rate_of(day, half);
        due_half(day, half, rate, before);
    }
    add(due, "type %u", type);
}

/* A day type is used where an entry names it that is no switching time. */
static int used(unsigned type) {
    for (const uint8_t *s = tariff->table; s < tariff->table + tariff->length; s += SLOT_BYTES)
        if (s[SLOT_ENTRY] > ENTRY_SWITCHING && s[SLOT_TYPE] == type)
            return 1;
    return 0;
}

void reckon_rates(const struct tariff *of, struct lines *to) {
    char words[2048];
    uint8_t text[COP6_WEEK_BYTES];
    tariff = of;
    due = to;
    sure(cop6_table_week(tariff->table, tariff->length, tariff->day, text, sizeof text));
    add(due, "caption Tariff, seven days from %s", date(tariff->day, "%F"));
    due_hours(due);
    for (uint32_t i = 0; i < DAYS_OF_WEEK; i++)
        due_rates(tariff->day + i, text[i * LINE + LINE_TYPE] - (unsigned)'0');
    for (unsigned type = 1; type <= DAY_TYPES; type++)
        if (used(type)) {
            switchings(type, words, sizeof words);
            add(due, "types %u: %s", type, words);
        }
}
