/* What a ledger holds: summary, missing, show, values, and its page. The ledger, the days asked for and a table are judged before the first line, so that all
 * is written or nothing: after that the library's calls are done. */
#include "commands.h"
#include "cop6.h"
#include "dates.h"
#include "files.h"
#include "page.h"
#include "say.h"

#include <inttypes.h>
#include <stdio.h>
#include <stdlib.h>

/* The days that a command is about, of a ledger that is good and has them all. */
struct span {
    struct bytes ledger;
    uint32_t first, last;
};

/* The days of the window, or those of the dates given. */
static int judge(const char *name, uint32_t dates, struct span *s) {
    uint64_t window = cop6_window(s->ledger.at, s->ledger.length);
    if (COP6_ANSWER(window) != COP6_DONE)
        return refused(name, window);
    uint32_t first = COP6_FIRST(window), last = first + COP6_COUNT(window) - 1;
    if (dates == 0) {
        s->first = first;
        s->last = last;
    }
    if (first <= s->first && s->last <= last)
        return DONE;
    return refused_for(name, COP6_RANGE, "%06" PRIu32 " is outside the ledger's window, %06" PRIu32 " to %06" PRIu32,
                       cop6_date(first <= s->first && s->first <= last ? s->last : s->first), cop6_date(first), cop6_date(last));
}

/* Reads the ledger of which days are asked for, if they are; its memory is the caller's to free. */
static int take_span(char **args, int count, struct span *s) {
    struct stat of;
    int status = DONE;
    *s = (struct span){.ledger = {NULL, 0}};
    if (count > 1)
        status = date(args[1], &s->first);
    s->last = s->first;
    if (status == DONE && count > 2)
        status = date(args[2], &s->last);
    if (status == DONE && s->last < s->first)
        status = trouble("%s is before %s", args[2], args[1]);
    if (status == DONE)
        status = read_ledger(args[0], &s->ledger, &of);
    return status == DONE ? judge(name_of(args[0]), (uint32_t)count - 1, s) : status;
}

static int ask(char **args, int count, void (*answer)(const struct span *)) {
    struct span s;
    int status = take_span(args, count, &s);
    if (status == DONE)
        answer(&s);
    free(s.ledger.at);
    return status;
}

/* ---- summary */

static void summary(const struct span *s) {
    for (uint32_t day = s->first; day <= s->last; day++) {
        uint64_t x[COP6_SUMMARY] = {0};
        cop6_summary(s->ledger.at, s->ledger.length, day, x, COP6_SUMMARY);
        if (x[COP6_HELD])
            printf("%06" PRIu32 " %02" PRIu64 " %08" PRIu64 " %06" PRIu64 " %02" PRIu64 " %02" PRIu64 "\n", cop6_date(day), x[COP6_K], x[COP6_START],
                   x[COP6_ADVANCE], x[COP6_REVERSE], x[COP6_LEVEL2]);
        else
            printf("%06" PRIu32 " absent\n", cop6_date(day));
    }
}

int summary_command(char **args, int count) { return ask(args, count, summary); }

/* ---- missing */

static void print_stretch(uint32_t day, uint32_t half, uint32_t last, uint32_t length) {
    printf("%06" PRIu32 " %02" PRIu32 ":%02" PRIu32 " to %06" PRIu32 " 24:00: %" PRIu32 "\n", cop6_date(day), half / 2, half % 2 * 30, cop6_date(last),
           length);
}

/* A stretch goes on where a day is missing from its first half-hour on. */
static void missing(const struct span *s) {
    uint32_t whole = 0, length = 0, begins = 0, half = 0;
    for (uint32_t day = s->first; day <= s->last; day++) {
        uint64_t r = cop6_missing(s->ledger.at, s->ledger.length, day);
        if (length > 0 && COP6_FIRST(r) > 0) {
            print_stretch(begins, half, day - 1, length);
            length = 0;
        }
        if (length == 0) {
            begins = day;
            half = COP6_FIRST(r);
        }
        length += COP6_COUNT(r);
        whole += COP6_COUNT(r);
    }
    if (length > 0)
        print_stretch(begins, half, s->last, length);
    printf("%" PRIu32 " half-hour%s missing\n", whole, plural(whole));
}

int missing_command(char **args, int count) { return ask(args, count, missing); }

/* ---- show */

/* Each half-hour is one character: a bar in eighths of the largest advance, rounded up, _ for none, a shade where it is missing. */
static const char *bar(uint64_t half, uint32_t largest) {
    static const char *const bars[] = {"_", "▁", "▂", "▃", "▄", "▅", "▆", "▇", "█"};
    return largest == 0 ? bars[0] : bars[(COP6_HALF_ADVANCE(half) * 8 + largest - 1) / largest];
}

static char mark(uint64_t half) {
    return COP6_HALF_REVERSE(half) ? COP6_HALF_LEVEL2(half) ? 'B' : 'R' : COP6_HALF_LEVEL2(half) ? '2' : ' ';
}

static uint32_t largest_advance(const struct span *s) {
    uint32_t largest = 0;
    for (uint32_t day = s->first; day <= s->last; day++) {
        uint64_t half[COP6_HALVES] = {0};
        cop6_halves(s->ledger.at, s->ledger.length, day, half, COP6_HALVES);
        for (int j = 0; j < COP6_HALVES; j++)
            if (largest < COP6_HALF_ADVANCE(half[j]))
                largest = COP6_HALF_ADVANCE(half[j]);
    }
    return largest;
}

/* A day's bars, its flags behind them, and under them its marks where it has any. */
static void show_day(const struct span *s, uint32_t day, uint32_t largest) {
    uint64_t half[COP6_HALVES] = {0};
    uint32_t held = COP6_CARRIED(cop6_halves(s->ledger.at, s->ledger.length, day, half, COP6_HALVES)), marks = 0;
    uint32_t flags = COP6_CARRIED(cop6_flags(s->ledger.at, s->ledger.length, day));
    printf("%06" PRIu32 " ", cop6_date(day));
    for (uint32_t j = 0; j < COP6_HALVES; j++) {
        fputs(j < held ? bar(half[j], largest) : "░", stdout);
        if (mark(half[j]) != ' ')
            marks = j + 1;
    }
    printf("%s%s%s%s\n", flags != 0 ? " " : "", flags & COP6_FLAG_POWER ? "P" : "", flags & COP6_FLAG_METER ? "M" : "", flags & COP6_FLAG_RESET ? "D" : "");
    if (marks == 0)
        return;
    fputs("       ", stdout);
    for (uint32_t j = 0; j < marks; j++)
        putchar(mark(half[j]));
    putchar('\n');
}

static void show(const struct span *s) {
    uint8_t identifier[COP6_IDENTIFIER] = {0};
    uint32_t largest = largest_advance(s);
    cop6_identifier(s->ledger.at, s->ledger.length, identifier, COP6_IDENTIFIER);
    printf("%.*s\n       00    03    06    09    12    15    18    21\n", COP6_IDENTIFIER, (const char *)identifier);
    for (uint32_t day = s->first; day <= s->last; day++)
        show_day(s, day, largest);
    if (largest > 0)
        printf("█ %" PRIu32 " unit%s of 10 Wh, ", largest, plural(largest));
    puts("_ none, ░ missing");
    puts("under a day R reverse, 2 Level 2, B both; behind it P power lost, M meter changed, D demand reset");
}

int show_command(char **args, int count) { return ask(args, count, show); }

/* ---- values */

static void values(const struct span *s) {
    puts("date,begins,start,value,advance,wh,reverse,level2");
    for (uint32_t day = s->first; day <= s->last; day++) {
        uint64_t half[COP6_HALVES] = {0}, x[COP6_SUMMARY] = {0};
        cop6_summary(s->ledger.at, s->ledger.length, day, x, COP6_SUMMARY);
        uint32_t held = COP6_CARRIED(cop6_halves(s->ledger.at, s->ledger.length, day, half, COP6_HALVES));
        for (uint32_t j = 0; j < held; j++) {
            uint32_t advance = COP6_HALF_ADVANCE(half[j]);
            print_date(day);
            putchar(',');
            print_date(day);
            printf("T%02" PRIu32 ":%02" PRIu32 ":00Z,%" PRIu64 ",%" PRIu32 ",%" PRIu32 ",%" PRIu32 ",%d,%d\n", j / 2, j % 2 * 30, x[COP6_START],
                   COP6_HALF_VALUE(half[j]), advance, advance * 10, COP6_HALF_REVERSE(half[j]), COP6_HALF_LEVEL2(half[j]));
        }
    }
}

int values_command(char **args, int count) { return ask(args, count, values); }

/* ---- page */

/* With a table, its week from a date on; where none is given, from the window's first day. */
int page_command(char **args, int count) {
    struct span s = {.ledger = {NULL, 0}};
    struct week week;
    uint32_t day = 0;
    int status = count > 2 ? date(args[2], &day) : DONE;
    if (status == DONE)
        status = take_span(args, 1, &s);
    if (status == DONE && count > 1)
        status = read_week(args[1], count > 2 ? day : s.first, &week);
    if (status == DONE)
        write_page(s.ledger.at, s.ledger.length, count > 1 ? &week : NULL);
    free(s.ledger.at);
    return status;
}
