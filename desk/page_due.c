/* What a page must say. The library answers what is held; dates, weekdays and months are the C library's, so that the page's own are held against others. */
#define _XOPEN_SOURCE 700

#include "page_due.h"

#include "cop6.h"

#include <stdarg.h>
#include <stdio.h>
#include <stdlib.h>
#include <string.h>
#include <time.h>

enum { WIDTH = 486, STRETCHES = 20 };

#define KWH "%u.%02u"

void fail(const char *what) {
    fprintf(stderr, "page_check: %s\n", what);
    exit(1);
}

void add(struct lines *to, const char *format, ...) {
    va_list args;
    va_start(args, format);
    int n = vsnprintf(to->at + to->length, MOST_BYTES - to->length, format, args);
    va_end(args);
    if (n < 0 || (size_t)n + 1 >= MOST_BYTES - to->length)
        fail("too much is said");
    to->length += (size_t)n;
    to->at[to->length++] = '\n';
    to->at[to->length] = '\0';
}

static const uint8_t *ledger;
static size_t length;
static uint32_t first, days;
static const struct scale *scale;
static struct lines *due;

uint64_t sure(uint64_t r) {
    if (COP6_ANSWER(r) != COP6_DONE)
        fail("the library refuses the ledger or the table");
    return r;
}

static uint32_t missing_of(uint32_t day) { return COP6_COUNT(sure(cop6_missing(ledger, length, day))); }

const char *date(uint32_t day, const char *format) {
    static char text[2][32];
    static unsigned turn;
    time_t seconds = (time_t)day * 86400 + 946684800;
    struct tm parts;
    turn = !turn;
    gmtime_r(&seconds, &parts);
    strftime(text[turn], sizeof text[turn], format, &parts);
    return text[turn];
}

static int month_ends(uint32_t day) { return day + 1 == first + days || strcmp(date(day + 1, "%d"), "01") == 0; }

/* What is held of days a to b: half-hours, their energy, and the largest of them. */
struct share {
    unsigned held, largest, largest_half;
    uint32_t largest_day;
    uint64_t energy;
};

static struct share share_of(uint32_t a, uint32_t b) {
    struct share s = {0, 0, 0, 0, 0};
    uint64_t half[COP6_HALVES];
    for (uint32_t day = a; day <= b; day++) {
        sure(cop6_halves(ledger, length, day, half, COP6_HALVES));
        s.held += COP6_HALVES - missing_of(day);
        for (unsigned j = 0; j < COP6_HALVES; j++) {
            s.energy += COP6_HALF_ADVANCE(half[j]);
            if (COP6_HALF_ADVANCE(half[j]) > s.largest) {
                s.largest = COP6_HALF_ADVANCE(half[j]);
                s.largest_half = j;
                s.largest_day = day;
            }
        }
    }
    return s;
}

static void due_total(const struct share *s) {
    if (s->held > 0)
        add(due, "total " KWH, OF_100(s->energy));
    else
        add(due, "total &#8211;");
}

static void due_head(void) {
    char identifier[COP6_IDENTIFIER + 1] = "", share[16];
    struct share s = share_of(first, first + days - 1);
    unsigned all = days * COP6_HALVES, tenths = s.held * 1000 / all;
    sure(cop6_identifier(ledger, length, (uint8_t *)identifier, COP6_IDENTIFIER));
    snprintf(share, sizeof share, s.held > 0 && tenths == 0 ? "under 0.1" : "%u.%u", tenths / 10, tenths % 10);
    add(due, "identifier %s", identifier);
    add(due, "window %s to %s, %u day%s", date(first, "%F"), date(first + days - 1, "%F"), days, days == 1 ? "" : "s");
    add(due, "held %u of %u half-hours, %s&#160;%%", s.held, all, share);
    add(due, "missing %u half-hour%s", all - s.held, all - s.held == 1 ? "" : "s");
    add(due, "energy " KWH " kWh", OF_100(s.energy));
    if (s.held == 0)
        add(due, "largest no half-hour is held");
    else if (s.largest == 0)
        add(due, "largest no half-hour held has any energy");
    else
        add(due, "largest " KWH " kWh, %s " CLOCK " to " CLOCK, OF_100(s.largest), date(s.largest_day, "%F"), TIME(s.largest_half), TIME(s.largest_half + 1));
    if (scale->shades == 0 ? s.largest > 0 : s.largest < scale->low[scale->shades - 1] || s.largest > scale->high[scale->shades - 1])
        fail("a scale that does not end where the largest half-hour does");
}

static void due_stretches(void) {
    unsigned found = 0, count = 0;
    uint32_t from = first;
    for (uint32_t day = first; day < first + days; day++) {
        from = count == 0 ? day : from;
        count += missing_of(day);
        if (count > 0 && (day + 1 == first + days || missing_of(day + 1) < COP6_HALVES)) {
            unsigned half = COP6_FIRST(cop6_missing(ledger, length, from));
            if (++found <= STRETCHES)
                add(due, "stretch %s " CLOCK " to %s 24:00: %u", date(from, "%F"), TIME(half), date(day, "%F"), count);
            count = 0;
        }
    }
    if (found > STRETCHES)
        add(due, "stretch and %u more", found - STRETCHES);
}

static void due_overview(void) {
    add(due, "caption Months");
    for (uint32_t a = first, b; a < first + days; a = b + 1) {
        for (b = a; !month_ends(b); b++)
            ;
        struct share s = share_of(a, b);
        unsigned all = (b - a + 1) * COP6_HALVES;
        add(due, "a #m%s ", date(a, "%Y-%m"));
        add(due, "row  %s", date(a, "%Y-%m"));
        add(due, "label %u of %u half-hours held", s.held, all);
        for (uint32_t day = a; day <= b; day++) {
            struct share d = share_of(day, day);
            int x = 10 * (atoi(date(day, "%d")) - 1);
            if (d.held < COP6_HALVES)
                add(due, "rect missing %d 9 ", x);
            if (d.held > 0)
                add(due, "rect whole %d " KWH " ", x, OF_100(d.held * 900 / COP6_HALVES));
            add(due, "g %s: %u of %d half-hours held, " KWH " kWh", date(day, "%F"), d.held, COP6_HALVES, OF_100(d.energy));
        }
        due_total(&s);
        add(due, s.held < all ? "total %u" : "total ", all - s.held);
    }
}

static unsigned place(unsigned half) { return 10 * half + 2 * (half / 12); }

unsigned share_before(unsigned half) { return place(half) * 10000 / WIDTH; }

void due_hours(struct lines *to) {
    for (unsigned hour = 0; hour < 24; hour++)
        add(to, "hour " SHARE " %02u", OF_100(share_before(2 * hour)), hour);
}

static void due_halves(uint32_t day) {
    uint64_t half[COP6_HALVES];
    unsigned held = COP6_FIRST(sure(cop6_missing(ledger, length, day)));
    sure(cop6_halves(ledger, length, day, half, COP6_HALVES));
    for (unsigned j = 0; j < held; j++) {
        unsigned advance = COP6_HALF_ADVANCE(half[j]), shade = 0;
        while (shade < scale->shades && scale->low[shade] <= advance)
            shade++;
        add(due, "rect s%u %u 9.4 %s " CLOCK " to " CLOCK ": " KWH " kWh%s%s", shade, place(j), date(day, "%F"), TIME(j), TIME(j + 1), OF_100(advance),
            COP6_HALF_REVERSE(half[j]) ? ", reverse running" : "", COP6_HALF_LEVEL2(half[j]) ? ", Level 2 access" : "");
        if (COP6_HALF_REVERSE(half[j]))
            add(due, "use #reverse %u", place(j));
        if (COP6_HALF_LEVEL2(half[j]))
            add(due, "use #level2 %u", place(j));
    }
    if (held < COP6_HALVES)
        add(due, "rect missing %u %u %s " CLOCK " to 24:00: %u half-hour%s missing", place(held), WIDTH - place(held), date(day, "%F"), TIME(held),
            COP6_HALVES - held, COP6_HALVES - held == 1 ? "" : "s");
}

static void due_day(uint32_t day) {
    struct share s = share_of(day, day);
    uint64_t summary[COP6_SUMMARY];
    uint32_t flags = COP6_CARRIED(sure(cop6_flags(ledger, length, day)));
    sure(cop6_summary(ledger, length, day, summary, COP6_SUMMARY));
    add(due, "row day%s %s", *date(day, "%u") >= '6' ? " weekend" : "", date(day, "%F %a"));
    add(due, "label %s: %u of %d half-hours held, " KWH " kWh", date(day, "%F"), s.held, COP6_HALVES, OF_100(s.energy));
    due_halves(day);
    due_total(&s);
    if (summary[COP6_HELD] == 0)
        add(due, "held absent");
    else
        add(due, s.held < COP6_HALVES ? "held %u of %d" : "held ", s.held, COP6_HALVES);
    add(due, "flags %s%s%s", flags & COP6_FLAG_POWER ? "P" : "", flags & COP6_FLAG_METER ? "M" : "", flags & COP6_FLAG_RESET ? "D" : "");
}

static void due_months(void) {
    for (uint32_t day = first; day < first + days; day++) {
        if (day == first || month_ends(day - 1)) {
            add(due, "caption %s", date(day, "%B %Y"));
            due_hours(due);
        }
        due_day(day);
    }
}

void reckon(const uint8_t *of, size_t of_length, const struct tariff *tariff, const struct scale *shown, struct lines *to) {
    ledger = of;
    length = of_length;
    scale = shown;
    due = to;
    uint64_t window = sure(cop6_window(ledger, length));
    first = COP6_FIRST(window);
    days = COP6_COUNT(window);
    due_head();
    due_stretches();
    if (tariff != NULL)
        reckon_rates(tariff, due);
    for (unsigned shade = 1; shade <= scale->shades; shade++)
        add(due, "swatch s%u", shade);
    if (days > 31)
        due_overview();
    due_months();
}
