/* The page of a ledger: what is held and missing in words, the legend, and the picture. It is HTML and well-formed XML, and fetches nothing. */
#include "page.h"

#include "dates.h"
#include "page_style.h"
#include "picture.h"
#include "rates.h"
#include "say.h"

#include <inttypes.h>
#include <stdio.h>

enum { MOST_STRETCHES = 20 };

static void print_time(uint32_t day, uint32_t half) {
    print_date(day);
    printf(" %02" PRIu32 ":%02" PRIu32, half / 2, half % 2 * 30);
}

/* ---- what is held */

/* Rounded down, so that 100.0 is all of it. */
static void print_share(uint32_t held, uint32_t all) {
    uint32_t thousandths = held * 1000 / all;
    if (held > 0 && thousandths == 0)
        fputs("under 0.1&#160;%", stdout);
    else
        printf("%" PRIu32 ".%" PRIu32 "&#160;%%", thousandths / 10, thousandths % 10);
}

static void print_largest(const struct window *w) {
    if (w->held == 0) {
        fputs("no half-hour is held", stdout);
    } else if (w->largest == 0) {
        fputs("no half-hour held has any energy", stdout);
    } else {
        uint32_t day = w->day[w->largest_i].number;
        print_kwh(w->largest);
        fputs(" kWh, ", stdout);
        print_time(day, w->largest_j);
        printf(" to %02" PRIu32 ":%02" PRIu32, (w->largest_j + 1) / 2, (w->largest_j + 1) % 2 * 30);
    }
}

static void print_facts(const struct window *w) {
    uint32_t all = w->days * COP6_HALVES;
    fputs("<dl>\n<dt>Window</dt><dd id=\"window\">", stdout);
    print_date(w->day[0].number);
    fputs(" to ", stdout);
    print_date(w->day[w->days - 1].number);
    printf(", %" PRIu32 " day%s</dd>\n<dt>Held</dt><dd id=\"held\">%" PRIu32 " of %" PRIu32 " half-hours, ", w->days, w->days == 1 ? "" : "s", w->held, all);
    print_share(w->held, all);
    printf("</dd>\n<dt>Missing</dt><dd id=\"missing\">%" PRIu32 " half-hour%s</dd>\n<dt>Energy held</dt><dd id=\"energy\">", all - w->held,
           all - w->held == 1 ? "" : "s");
    print_kwh(w->advance);
    fputs(" kWh</dd>\n<dt>Largest half-hour</dt><dd id=\"largest\">", stdout);
    print_largest(w);
    fputs("</dd>\n</dl>\n", stdout);
}

/* ---- what is missing */

/* The stretch that begins in day i of the window, in days: it goes on where a day is missing from its first half-hour on. Its half-hours in `count`. */
static uint32_t stretch(const struct window *w, uint32_t i, uint32_t *count) {
    uint32_t n = 1;
    *count = COP6_HALVES - w->day[i].k;
    while (*count > 0 && i + n < w->days && w->day[i + n].k == 0) {
        *count += COP6_HALVES;
        n++;
    }
    return n;
}

static void print_stretches(const struct window *w) {
    uint32_t found = 0;
    fputs("<h2>Missing half-hours</h2>\n<ul class=\"stretches\">\n", stdout);
    for (uint32_t i = 0, n, count; i < w->days; i += n) {
        n = stretch(w, i, &count);
        if (count > 0 && ++found <= MOST_STRETCHES) {
            fputs("<li>", stdout);
            print_time(w->day[i].number, w->day[i].k);
            fputs(" to ", stdout);
            print_time(w->day[i + n - 1].number, COP6_HALVES);
            printf(": %" PRIu32 "</li>\n", count);
        }
    }
    if (found > MOST_STRETCHES)
        printf("<li>and %" PRIu32 " more</li>\n", found - MOST_STRETCHES);
    fputs("</ul>\n", stdout);
}

/* ---- the legend */

static void print_swatch(const char *class, const char *sign, const char *meaning) {
    printf("<li><svg viewBox=\"0 0 10 16\" preserveAspectRatio=\"none\" aria-hidden=\"true\"><rect class=\"%s\" width=\"9.4\" height=\"16\"/>%s</svg>%s</li>\n",
           class, sign, meaning);
}

static void print_scale(const struct window *w) {
    fputs("<ul class=\"legend\" id=\"scale\">\n", stdout);
    for (uint32_t shade = 1; shade <= SHADES && w->largest > (shade - 1) * w->step; shade++) {
        printf("<li><svg class=\"wide\" viewBox=\"0 0 10 16\" preserveAspectRatio=\"none\" aria-hidden=\"true\">"
               "<rect class=\"s%" PRIu32 "\" width=\"10\" height=\"16\"/></svg>",
               shade);
        print_kwh((shade - 1) * w->step + 1);
        if (shade == SHADES && w->largest > SHADES * w->step) {
            fputs(" and more", stdout);
        } else if (w->step > 1) {
            fputs(" to ", stdout);
            print_kwh(shade * w->step);
        }
        fputs("</li>\n", stdout);
    }
    fputs("</ul>\n", stdout);
}

static void print_legend(const struct window *w) {
    fputs("<h2>Signs</h2>\n<p>Each cell is a half-hour, shaded by its energy in kWh; times are UTC, and the hours stand where they begin.</p>\n", stdout);
    if (w->largest > 0)
        print_scale(w);
    fputs("<ul class=\"legend\">\n", stdout);
    print_swatch("s0", "", "no energy");
    print_swatch("missing", "", "missing");
    print_swatch("s3", "<use href=\"#reverse\"/>", "reverse running");
    print_swatch("s3", "<use href=\"#level2\"/>", "Level 2 access");
    fputs("<li><abbr>P</abbr>power was lost</li>\n<li><abbr>M</abbr>the meter was changed</li>\n<li><abbr>D</abbr>the maximum demand was reset</li>\n"
          "</ul>\n<p>A day&#8217;s kWh are of the half-hours held; how many these are is said where it is not all " FIGURES(COP6_HALVES) ". "
          "Flags are held of whole days only. "
          "A day is absent where not even its start reading is held. Saturdays and Sundays have a bar before the date.</p>\n",
          stdout);
}

/* ---- the page */

int write_page(const uint8_t *ledger, size_t length, const struct week *week) {
    struct window w;
    if (take_window(ledger, length, &w) != 0)
        return 1;
    printf("<!DOCTYPE html>\n<html lang=\"en\">\n<head>\n<meta charset=\"utf-8\"/>\n<meta name=\"viewport\" content=\"width=device-width, initial-scale=1\"/>\n"
           "<meta name=\"color-scheme\" content=\"only light\"/>\n<title>%s: half-hours held</title>\n<style>\n%s</style>\n</head>\n<body>\n<main>\n",
           w.identifier, page_style);
    draw_signs();
    printf("<h1>Meter <span id=\"identifier\">%s</span></h1>\n", w.identifier);
    print_facts(&w);
    if (w.held < w.days * COP6_HALVES)
        print_stretches(&w);
    if (week != NULL)
        draw_rates(week);
    print_legend(&w);
    if (w.days > 31)
        draw_overview(&w);
    draw_months(&w);
    fputs("</main>\n</body>\n</html>\n", stdout);
    return 0;
}
