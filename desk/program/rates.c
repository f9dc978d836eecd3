/* Draws a week's rates in the manner of a month's half-hours. A rate is told by its figure as well as by its colour, and the exact times by words. */
#include "rates.h"

#include "dates.h"
#include "picture.h"

#include <inttypes.h>
#include <stdio.h>
#include <string.h>

/* A day type's line: its number, and from TIMES on each switching time as hhmm, a space and the rate, with a comma and a space between two. */
enum { TIMES = 2, TIME_MINUTE = 2, TIME_RATE = 5, TIME_END = 6, TIME = 8 };

static const char *first_type(const struct week *w) { return w->text + WEEK_DAYS * LINE; }

static const char *next_line(const char *line) { return strchr(line, '\n') + 1; }

static void print_switchings(const char *line) {
    const char *at = line + TIMES;
    for (;; at += TIME) {
        printf("rate %c from %.2s:%.2s", at[TIME_RATE], at, at + TIME_MINUTE);
        if (at[TIME_END] != ',')
            return;
        fputs(", ", stdout);
    }
}

/* ---- a day */

static void print_place(uint32_t share) { printf("%" PRIu32 ".%02" PRIu32 "%%", share / 100, share % 100); }

enum { CELL = 193 }; /* a cell's width as such a share, a little less than there is */

static void draw_cell(uint32_t day, const char *half, uint32_t j) {
    printf("<rect class=\"%s", half[j] == '+' ? "changes" : "r");
    if (half[j] != '+')
        putchar(half[j]);
    fputs("\" x=\"", stdout);
    print_place(share_before(j));
    fputs("\" width=\"", stdout);
    print_place(CELL);
    fputs("\" height=\"100%\"><title>", stdout);
    print_date(day);
    putchar(' ');
    print_clock(j);
    fputs(" to ", stdout);
    print_clock(j + 1);
    if (half[j] == '+')
        fputs(": the rate changes", stdout);
    else
        printf(": rate %c", half[j]);
    fputs("</title></rect>\n", stdout);
}

/* The figure stands where a rate begins, the sign wherever it changes inside. */
static void draw_figure(const char *half, uint32_t j) {
    if (j > 0 && half[j] == half[j - 1] && half[j] != '+')
        return;
    fputs("<text x=\"", stdout);
    print_place(share_before(j) + CELL / 2);
    printf("\" y=\"75%%\">%c</text>\n", half[j]);
}

static void draw_day(const struct week *w, uint32_t i) {
    const char *line = w->text + i * LINE, *type = first_type(w);
    while (*type != line[LINE_TYPE])
        type = next_line(type);
    begin_row(w->day + i);
    fputs("<td class=\"halves\"><svg role=\"img\" aria-label=\"", stdout);
    print_date(w->day + i);
    fputs(": ", stdout);
    print_switchings(type);
    fputs("\">\n", stdout);
    for (uint32_t j = 0; j < COP6_HALVES; j++) {
        draw_cell(w->day + i, line + LINE_HALVES, j);
        draw_figure(line + LINE_HALVES, j);
    }
    printf("</svg></td><td class=\"type\">%c</td></tr>\n", line[LINE_TYPE]);
}

/* ---- the week */

void draw_rates(const struct week *w) {
    fputs("<table class=\"days rates\"><caption>Tariff, seven days from ", stdout);
    print_date(w->day);
    fputs("</caption>\n<thead><tr><th scope=\"col\">Day</th><th scope=\"col\" class=\"halves\" aria-label=\"half-hours\">", stdout);
    draw_hours();
    fputs("</th><th scope=\"col\" class=\"type\">Day type</th></tr></thead>\n<tbody>\n", stdout);
    for (uint32_t i = 0; i < WEEK_DAYS; i++)
        draw_day(w, i);
    fputs("</tbody></table>\n<p>Each cell is a half-hour, coloured by its rate, of which the figure stands where it begins; "
          "+ stands where the rate changes inside the half-hour. Times are UTC. The day types, and when they switch:</p>\n<ul class=\"types\">\n",
          stdout);
    for (const char *type = first_type(w); *type != '\0'; type = next_line(type)) {
        printf("<li>%c: ", *type);
        print_switchings(type);
        fputs("</li>\n", stdout);
    }
    fputs("</ul>\n", stdout);
}
