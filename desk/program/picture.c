/* Draws the half-hours of a window. A drawing is stretched to the width there is, so that a page suits a wide screen, a telephone and paper; what is text
 * stands beside it and stays legible. */
#include "picture.h"

#include "dates.h"

#include <inttypes.h>
#include <stdio.h>

/* A day's drawing in its own units: a cell for each half-hour, a little apart, and more so every six hours. */
enum { PITCH = 10, APART = 2, QUARTER = COP6_HALVES / 4, WIDTH = COP6_HALVES * PITCH + 3 * APART, HEIGHT = 16 };
#define CELL "9.4"

static uint32_t place(uint32_t half) { return half * PITCH + half / QUARTER * APART; }

/* ---- dates and figures */

static const char *month_name(uint32_t day) {
    static const char *const names[] = {"January", "February", "March",     "April",   "May",      "June",
                                        "July",    "August",   "September", "October", "November", "December"};
    return names[cop6_date(day) / 100 % 100 - 1];
}

static uint32_t weekday(uint32_t day) { return (day + 5) % 7; } /* 0 is Monday; 2000-01-01 was a Saturday */

static int same_month(uint32_t a, uint32_t b) { return cop6_date(a) / 100 == cop6_date(b) / 100; }

static void print_month(uint32_t day) { printf("20%02" PRIu32 "-%02" PRIu32, cop6_date(day) / 10000, cop6_date(day) / 100 % 100); }

void print_kwh(uint64_t units) { printf("%" PRIu64 ".%02" PRIu64, units / 100, units % 100); }

/* Of no half-hour held there is no total, which is not a total of none. */
static void print_total(uint32_t held, uint64_t units) {
    if (held > 0)
        print_kwh(units);
    else
        fputs("&#8211;", stdout);
}

void print_clock(uint32_t half) { printf("%02" PRIu32 ":%02" PRIu32, half / 2, half % 2 * 30); }

/* ---- signs */

void draw_signs(void) {
    fputs("<svg class=\"signs\" width=\"0\" height=\"0\" aria-hidden=\"true\"><defs>\n"
          "<pattern id=\"hatch\" width=\"8\" height=\"8\" patternUnits=\"userSpaceOnUse\">"
          "<rect width=\"8\" height=\"8\" fill=\"#fff1e0\"/><path d=\"M-2 2L2-2M-2 10L10-2M6 10L10 6\" stroke=\"#c2410c\" stroke-width=\"2.2\"/></pattern>\n"
          "<path id=\"reverse\" class=\"reverse\" d=\"M7.8 .9v6.4L1.4 4.1z\"/>\n"
          "<rect id=\"level2\" class=\"level2\" x=\"2\" y=\"9.4\" width=\"5.4\" height=\"5.2\"/>\n"
          "</defs></svg>\n",
          stdout);
}

/* ---- a day */

static void draw_cell(const struct window *w, const struct day *d, uint32_t j) {
    uint64_t half = d->half[j];
    printf("<rect class=\"s%" PRIu32 "\" x=\"%" PRIu32 "\" width=\"" CELL "\" height=\"%d\"><title>", shade_of(w, COP6_HALF_ADVANCE(half)), place(j), HEIGHT);
    print_date(d->number);
    putchar(' ');
    print_clock(j);
    fputs(" to ", stdout);
    print_clock(j + 1);
    fputs(": ", stdout);
    print_kwh(COP6_HALF_ADVANCE(half));
    printf(" kWh%s%s</title></rect>\n", COP6_HALF_REVERSE(half) ? ", reverse running" : "", COP6_HALF_LEVEL2(half) ? ", Level 2 access" : "");
    if (COP6_HALF_REVERSE(half))
        printf("<use href=\"#reverse\" x=\"%" PRIu32 "\"/>\n", place(j));
    if (COP6_HALF_LEVEL2(half))
        printf("<use href=\"#level2\" x=\"%" PRIu32 "\"/>\n", place(j));
}

static void draw_missing(const struct day *d) {
    printf("<rect class=\"missing\" x=\"%" PRIu32 "\" width=\"%" PRIu32 "\" height=\"%d\"><title>", place(d->k), WIDTH - place(d->k), HEIGHT);
    print_date(d->number);
    putchar(' ');
    print_clock(d->k);
    printf(" to 24:00: %" PRIu32 " half-hour%s missing</title></rect>\n", COP6_HALVES - d->k, COP6_HALVES - d->k == 1 ? "" : "s");
}

static void draw_day(const struct window *w, const struct day *d) {
    printf("<svg viewBox=\"0 0 %d %d\" preserveAspectRatio=\"none\" role=\"img\" aria-label=\"", WIDTH, HEIGHT);
    print_date(d->number);
    printf(": %" PRIu32 " of %d half-hours held, ", d->k, COP6_HALVES);
    print_kwh(d->advance);
    fputs(" kWh\">\n", stdout);
    for (uint32_t j = 0; j < d->k; j++)
        draw_cell(w, d, j);
    if (d->k < COP6_HALVES)
        draw_missing(d);
    fputs("</svg>", stdout);
}

static void print_flags(uint32_t flags) {
    if (flags & COP6_FLAG_POWER)
        fputs("<abbr title=\"power was lost\">P</abbr>", stdout);
    if (flags & COP6_FLAG_METER)
        fputs("<abbr title=\"the meter was changed\">M</abbr>", stdout);
    if (flags & COP6_FLAG_RESET)
        fputs("<abbr title=\"the maximum demand was reset\">D</abbr>", stdout);
}

void begin_row(uint32_t day) {
    static const char *const names[] = {"Mon", "Tue", "Wed", "Thu", "Fri", "Sat", "Sun"};
    uint32_t name = weekday(day);
    printf("<tr class=\"%s\"><th scope=\"row\"><span class=\"month\">", name >= 5 ? "day weekend" : "day");
    print_month(day);
    printf("-</span>%02" PRIu32 " %s</th>", cop6_date(day) % 100, names[name]);
}

static void print_day(const struct window *w, const struct day *d) {
    begin_row(d->number);
    fputs("<td class=\"halves\">", stdout);
    draw_day(w, d);
    fputs("</td><td class=\"total\">", stdout);
    print_total(d->k, d->advance);
    fputs("</td><td class=\"held\">", stdout);
    if (!d->held)
        fputs("absent", stdout);
    else if (d->k < COP6_HALVES)
        printf("%" PRIu32 "<span class=\"of\"> of %d</span>", d->k, COP6_HALVES);
    fputs("</td><td class=\"flags\">", stdout);
    print_flags(d->flags);
    fputs("</td></tr>\n", stdout);
}

/* ---- a month */

uint32_t share_before(uint32_t half) { return place(half) * 10000 / WIDTH; }

void draw_hours(void) {
    fputs("<svg class=\"hours\" height=\"16\" aria-hidden=\"true\">", stdout);
    for (uint32_t hour = 0; hour < 24; hour++)
        printf("<text%s x=\"%" PRIu32 ".%02" PRIu32 "%%\" y=\"12\">%02" PRIu32 "</text>", hour % 3 == 0 ? "" : " class=\"between\"",
               share_before(2 * hour) / 100, share_before(2 * hour) % 100, hour);
    fputs("</svg>", stdout);
}

/* How many days from the i-th on are of its month. */
static uint32_t month_length(const struct window *w, uint32_t i) {
    uint32_t n = 1;
    while (i + n < w->days && same_month(w->day[i].number, w->day[i + n].number))
        n++;
    return n;
}

void draw_months(const struct window *w) {
    for (uint32_t i = 0, n; i < w->days; i += n) {
        n = month_length(w, i);
        fputs("<table class=\"days\" id=\"m", stdout);
        print_month(w->day[i].number);
        printf("\"><caption>%s 20%02" PRIu32 "</caption>\n<thead><tr><th scope=\"col\">Day</th><th scope=\"col\" class=\"halves\" aria-label=\"half-hours\">",
               month_name(w->day[i].number), cop6_date(w->day[i].number) / 10000);
        draw_hours();
        fputs("</th><th scope=\"col\" class=\"total\">kWh</th><th scope=\"col\" class=\"held\">Held</th><th scope=\"col\" class=\"flags\">Flags</th>"
              "</tr></thead>\n<tbody>\n",
              stdout);
        for (uint32_t j = 0; j < n; j++)
            print_day(w, &w->day[i + j]);
        fputs("</tbody></table>\n", stdout);
    }
}

/* ---- the months in short */

enum { SQUARE = 10, SQUARE_ROW = 31 * SQUARE };

/* A day as a square, filled as far as it is held. */
static void draw_square(const struct day *d) {
    uint32_t x = (cop6_date(d->number) % 100 - 1) * SQUARE, filled = d->k * 900 / COP6_HALVES;
    fputs("<g><title>", stdout);
    print_date(d->number);
    printf(": %" PRIu32 " of %d half-hours held, ", d->k, COP6_HALVES);
    print_kwh(d->advance);
    fputs(" kWh</title>", stdout);
    if (d->k < COP6_HALVES)
        printf("<rect class=\"missing\" x=\"%" PRIu32 "\" width=\"9\" height=\"9\"/>", x);
    if (d->k > 0)
        printf("<rect class=\"whole\" x=\"%" PRIu32 "\" width=\"%" PRIu32 ".%02" PRIu32 "\" height=\"9\"/>", x, filled / 100, filled % 100);
    fputs("</g>\n", stdout);
}

static void print_month_row(const struct window *w, uint32_t i, uint32_t n) {
    uint32_t held = 0;
    uint64_t advance = 0;
    for (uint32_t j = i; j < i + n; j++) {
        held += w->day[j].k;
        advance += w->day[j].advance;
    }
    fputs("<tr><th scope=\"row\"><a href=\"#m", stdout);
    print_month(w->day[i].number);
    fputs("\">", stdout);
    print_month(w->day[i].number);
    printf("</a></th><td><svg viewBox=\"0 0 %d 9\" role=\"img\" aria-label=\"%" PRIu32 " of %" PRIu32 " half-hours held\">\n", SQUARE_ROW - 1, held,
           n * COP6_HALVES);
    for (uint32_t j = i; j < i + n; j++)
        draw_square(&w->day[j]);
    fputs("</svg></td><td class=\"total\">", stdout);
    print_total(held, advance);
    fputs("</td><td class=\"total\">", stdout);
    if (held < n * COP6_HALVES)
        printf("%" PRIu32, n * COP6_HALVES - held);
    fputs("</td></tr>\n", stdout);
}

void draw_overview(const struct window *w) {
    fputs("<table class=\"overview\"><caption>Months</caption>\n<thead><tr><th scope=\"col\">Month</th>"
          "<th scope=\"col\">Days, 1 to 31, as far as they are held</th><th scope=\"col\" class=\"total\">kWh</th>"
          "<th scope=\"col\" class=\"total\">Missing</th></tr></thead>\n<tbody>\n",
          stdout);
    for (uint32_t i = 0, n; i < w->days; i += n) {
        n = month_length(w, i);
        print_month_row(w, i, n);
    }
    fputs("</tbody></table>\n", stdout);
}
