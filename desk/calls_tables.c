/* The calls on a tariff switching table, with cases reckoned by hand. */
#include "calls.h"

#include <string.h>

/* The table of docs/TARIFF.md's week, with unused slots behind it. */
static const uint8_t drawn[][SLOT_BYTES] = {
    {ENTRY_SWITCHING, 1, 0, 0, 1},     {ENTRY_SWITCHING, 1, 7, 0, 2},  {ENTRY_SWITCHING, 1, 23, 30, 1},   {ENTRY_SWITCHING, 2, 0, 0, 3},
    {ENTRY_SWITCHING, 3, 0, 0, 4},     {ENTRY_SWITCHING, 3, 12, 0, 1}, {ENTRY_DEFAULT, 1, 0, 0, 0},       {ENTRY_WEEKDAYS, 2, 6, 7, 0},
    {ENTRY_EXCEPTION, 3, 100, 12, 25}, {ENTRY_EXCEPTION, 2, 24, 5, 6},
};
/* Those of its slots that are changed here, and the first unused one. */
enum { OTHERWISE = 6, WEEKDAYS = 7, FREE = sizeof drawn / sizeof *drawn };

static uint8_t table[COP6_TABLE_BYTES + 1];

static void put_drawn(void) {
    memset(table, 0, sizeof table);
    memcpy(table, drawn, sizeof drawn);
}

/* The same from the last slot on. */
static void put_reversed(void) {
    memset(table, 0, sizeof table);
    for (size_t i = 0; i < FREE; i++)
        memcpy(table + SLOT_BYTES * (SLOTS - 1 - i), drawn[i], SLOT_BYTES);
}

static void put(size_t i, const uint8_t *slot) { memcpy(table + SLOT_BYTES * i, slot, SLOT_BYTES); }

#define PUT(i, ...) put(i, (const uint8_t[SLOT_BYTES]){__VA_ARGS__})

/* The drawn table with one slot more, or another one in a slot's place, is so answered. */
#define JUDGED(i, answer, ...) (put_drawn(), PUT(i, __VA_ARGS__), IS(cop6_table_judge(table, COP6_TABLE_BYTES), ANSWER(answer, 0)))

void tables_judged(void) {
    put_drawn();
    IS(cop6_table_judge(table, COP6_TABLE_BYTES), ANSWER(COP6_DONE, 0));
    IS(cop6_table_judge(NULL, 0), ANSWER(COP6_RANGE, 0));
    IS(cop6_table_judge(table, COP6_TABLE_BYTES - 1), ANSWER(COP6_RANGE, 0));
    IS(cop6_table_judge(table, COP6_TABLE_BYTES + 1), ANSWER(COP6_RANGE, 0));
    JUDGED(FREE, COP6_RANGE, ENTRY_UNUSED, 0, 0, 0, 1);
    JUDGED(FREE, COP6_RANGE, ENTRY_UNUSED, 1, 0, 0, 0);
    JUDGED(FREE, COP6_RANGE, ENTRY_DEFAULT + 1, 1, 0, 0, 0);
    JUDGED(OTHERWISE, COP6_RANGE, ENTRY_DEFAULT, 1, 0, 0, 1);
    JUDGED(OTHERWISE, COP6_RANGE, ENTRY_UNUSED, 0, 0, 0, 0);
    JUDGED(WEEKDAYS, COP6_RANGE, ENTRY_WEEKDAYS, 2, 0, 7, 0);
    JUDGED(WEEKDAYS, COP6_RANGE, ENTRY_WEEKDAYS, 2, 7, 6, 0);
    JUDGED(WEEKDAYS, COP6_RANGE, ENTRY_WEEKDAYS, 2, 6, 8, 0);
    JUDGED(WEEKDAYS, COP6_RANGE, ENTRY_WEEKDAYS, 2, 6, 7, 1);
    JUDGED(WEEKDAYS, COP6_DONE, ENTRY_WEEKDAYS, 2, 1, 7, 0);
    JUDGED(FREE, COP6_RANGE, ENTRY_SWITCHING, 0, 1, 0, 1);
    JUDGED(FREE, COP6_RANGE, ENTRY_SWITCHING, 9, 1, 0, 1);
    JUDGED(FREE, COP6_RANGE, ENTRY_SWITCHING, 8, 24, 0, 1);
    JUDGED(FREE, COP6_RANGE, ENTRY_SWITCHING, 8, 1, 60, 1);
    JUDGED(FREE, COP6_RANGE, ENTRY_SWITCHING, 8, 1, 0, 9);
    JUDGED(FREE, COP6_RANGE, ENTRY_SWITCHING, 8, 1, 0, 0);
    JUDGED(FREE, COP6_DONE, ENTRY_SWITCHING, 8, 23, 59, 8);
    JUDGED(FREE, COP6_DONE, ENTRY_EXCEPTION, 1, 100, 2, 29);
    JUDGED(FREE, COP6_RANGE, ENTRY_EXCEPTION, 1, 100, 2, 30);
    JUDGED(FREE, COP6_DONE, ENTRY_EXCEPTION, 1, 24, 2, 29);
    JUDGED(FREE, COP6_RANGE, ENTRY_EXCEPTION, 1, 23, 2, 29);
    JUDGED(FREE, COP6_DONE, ENTRY_EXCEPTION, 1, 99, 12, 31);
    JUDGED(FREE, COP6_RANGE, ENTRY_EXCEPTION, 1, 101, 1, 1);
    JUDGED(FREE, COP6_RANGE, ENTRY_EXCEPTION, 1, 24, 13, 1);
    JUDGED(FREE, COP6_RANGE, ENTRY_EXCEPTION, 1, 24, 1, 0);
}

/* Entries of one rank that cover the same day clash, and times of one day type at one minute. */
void tables_clash(void) {
    JUDGED(FREE, COP6_CLASH, ENTRY_DEFAULT, 1, 0, 0, 0);
    JUDGED(FREE, COP6_CLASH, ENTRY_DEFAULT, 2, 0, 0, 0);
    JUDGED(FREE, COP6_CLASH, ENTRY_WEEKDAYS, 1, 7, 7, 0);
    JUDGED(FREE, COP6_CLASH, ENTRY_WEEKDAYS, 1, 1, 6, 0);
    JUDGED(FREE, COP6_DONE, ENTRY_WEEKDAYS, 1, 1, 5, 0);
    JUDGED(FREE, COP6_CLASH, ENTRY_SWITCHING, 1, 7, 0, 2);
    JUDGED(FREE, COP6_CLASH, ENTRY_SWITCHING, 1, 7, 0, 5);
    JUDGED(FREE, COP6_DONE, ENTRY_SWITCHING, 1, 7, 1, 2);
    JUDGED(FREE, COP6_DONE, ENTRY_SWITCHING, 2, 7, 0, 2);
    JUDGED(FREE, COP6_CLASH, ENTRY_EXCEPTION, 1, 24, 12, 25);
    JUDGED(FREE, COP6_CLASH, ENTRY_EXCEPTION, 1, 100, 5, 6);
    JUDGED(FREE, COP6_CLASH, ENTRY_EXCEPTION, 1, 24, 5, 6);
    JUDGED(FREE, COP6_DONE, ENTRY_EXCEPTION, 1, 25, 5, 6);
    /* every range is judged before any clash */
    JUDGED(FREE, COP6_CLASH, ENTRY_DEFAULT, 1, 0, 0, 0);
    PUT(FREE + 1, ENTRY_SWITCHING, 1, 24, 0, 1);
    IS(cop6_table_judge(table, COP6_TABLE_BYTES), ANSWER(COP6_RANGE, 0));
    /* a day type is used also where its entry is always beaten, and one that is not needs no rate from 00:00 */
    JUDGED(OTHERWISE, COP6_RANGE, ENTRY_DEFAULT, 4, 0, 0, 0);
    PUT(FREE, ENTRY_WEEKDAYS, 1, 1, 5, 0);
    IS(cop6_table_judge(table, COP6_TABLE_BYTES), ANSWER(COP6_RANGE, 0));
    PUT(FREE + 1, ENTRY_SWITCHING, 4, 0, 1, 8);
    IS(cop6_table_judge(table, COP6_TABLE_BYTES), ANSWER(COP6_RANGE, 0));
    PUT(FREE + 2, ENTRY_SWITCHING, 4, 0, 0, 8);
    IS(cop6_table_judge(table, COP6_TABLE_BYTES), ANSWER(COP6_DONE, 0));
}

/* 48 switching times and 32 exceptions are accepted; one more of either is not, also where it clashes besides. */
void tables_full(void) {
    put_drawn();
    for (uint8_t i = FREE; i < FREE + 42; i++)
        PUT(i, ENTRY_SWITCHING, 8, i % 24, i, 1);
    IS(cop6_table_judge(table, COP6_TABLE_BYTES), ANSWER(COP6_DONE, 0));
    PUT(FREE + 42, ENTRY_SWITCHING, 7, 1, 0, 1);
    IS(cop6_table_judge(table, COP6_TABLE_BYTES), ANSWER(COP6_RANGE, 0));
    for (uint8_t i = 0; i < 30; i++)
        PUT(FREE + 42 + i, ENTRY_EXCEPTION, 1, 100, 1, i + 1);
    IS(cop6_table_judge(table, COP6_TABLE_BYTES), ANSWER(COP6_DONE, 0));
    PUT(FREE + 72, ENTRY_EXCEPTION, 1, 100, 12, 25);
    IS(cop6_table_judge(table, COP6_TABLE_BYTES), ANSWER(COP6_RANGE, 0));
}

/* A second of a day, by hour, minute and second. */
#define AT(yymmdd, h, m, s) ((uint64_t)cop6_day(yymmdd) * 86400 + (h) * 3600 + (m) * 60 + (s))
#define RATE(time, rate) IS(cop6_table_rate(table, COP6_TABLE_BYTES, time), ANSWER(COP6_DONE, rate))

static void drawn_rates(void) {
    RATE(AT(240226, 0, 0, 0), 1);
    RATE(AT(240226, 6, 59, 59), 1);
    RATE(AT(240226, 7, 0, 0), 2);
    RATE(AT(240226, 23, 29, 59), 2);
    RATE(AT(240226, 23, 30, 0), 1);
    RATE(AT(240302, 0, 0, 0), 3);
    RATE(AT(240303, 23, 59, 59), 3);
    RATE(AT(240506, 7, 0, 0), 3);
    RATE(AT(250506, 7, 0, 0), 2);
    RATE(AT(241225, 11, 59, 59), 4);
    RATE(AT(241225, 12, 0, 0), 1);
    RATE(AT(221225, 0, 0, 0), 4); /* a Sunday: the exception beats the weekday */
    RATE(AT(101, 0, 0, 0), 3);    /* 2000-01-01, a Saturday */
    RATE(AT(991231, 23, 59, 59), 1);
}

void table_rates(void) {
    put_reversed();
    drawn_rates();
    put_drawn();
    drawn_rates();
    IS(cop6_table_rate(table, COP6_TABLE_BYTES, AT(991231, 24, 0, 0)), ANSWER(COP6_RANGE, 0));
    IS(cop6_table_rate(table, COP6_TABLE_BYTES, UINT64_MAX), ANSWER(COP6_RANGE, 0));
    IS(cop6_table_rate(table, COP6_TABLE_BYTES - 1, 0), ANSWER(COP6_RANGE, 0));
    PUT(FREE, ENTRY_DEFAULT, 1, 0, 0, 0);
    IS(cop6_table_rate(table, COP6_TABLE_BYTES, 0), ANSWER(COP6_CLASH, 0));
    IS(cop6_table_rate(table, COP6_TABLE_BYTES, AT(991231, 24, 0, 0)), ANSWER(COP6_RANGE, 0));
}

/* The week of docs/TARIFF.md: whole, or nothing of it. */
void table_weeks(void) {
    static const char week[] = "240226 1 1 111111111111112222222222222222222222222222222221\n"
                               "240227 2 1 111111111111112222222222222222222222222222222221\n"
                               "240228 3 1 111111111111112222222222222222222222222222222221\n"
                               "240229 4 1 111111111111112222222222222222222222222222222221\n"
                               "240301 5 1 111111111111112222222222222222222222222222222221\n"
                               "240302 6 2 333333333333333333333333333333333333333333333333\n"
                               "240303 7 2 333333333333333333333333333333333333333333333333\n"
                               "1 0000 1, 0700 2, 2330 1\n"
                               "2 0000 3\n"
                               "3 0000 4, 1200 1\n";
    enum { MONDAY = DAY - 3, LENGTH = sizeof week - 1, LAST_WEEK = LAST_DAY - 6 };
    uint8_t out[COP6_WEEK_BYTES];
    memset(out, CLEAR, sizeof out);
    put_drawn();
    IS(LENGTH, 471);
    IS(cop6_table_week(table, COP6_TABLE_BYTES, MONDAY, NULL, 0), ANSWER(COP6_SHORT, LENGTH));
    IS(cop6_table_week(table, COP6_TABLE_BYTES, MONDAY, out, LENGTH - 1), ANSWER(COP6_SHORT, LENGTH));
    IS(cop6_table_week(table, COP6_TABLE_BYTES, LAST_WEEK + 1, out, sizeof out), ANSWER(COP6_RANGE, 0));
    IS(cop6_table_week(table, COP6_TABLE_BYTES + 1, MONDAY, out, sizeof out), ANSWER(COP6_RANGE, 0));
    PUT(FREE, ENTRY_DEFAULT, 2, 0, 0, 0);
    IS(cop6_table_week(table, COP6_TABLE_BYTES, MONDAY, out, 0), ANSWER(COP6_CLASH, 0));
    IS(cop6_table_week(table, COP6_TABLE_BYTES, LAST_WEEK + 1, out, sizeof out), ANSWER(COP6_RANGE, 0));
    IS(clear(out, sizeof out), 1);
    put_drawn();
    IS(cop6_table_week(table, COP6_TABLE_BYTES, LAST_WEEK, out, sizeof out), ANSWER(COP6_DONE, LENGTH));
    IS(memcmp(out, "991225 5 3 4", 12), 0);
    IS(cop6_table_week(table, COP6_TABLE_BYTES, MONDAY, out, LENGTH), ANSWER(COP6_DONE, LENGTH));
    IS(memcmp(out, week, LENGTH), 0);
    put_reversed();
    memset(out, CLEAR, sizeof out);
    IS(cop6_table_week(table, COP6_TABLE_BYTES, MONDAY, out, sizeof out), ANSWER(COP6_DONE, LENGTH));
    IS(memcmp(out, week, LENGTH), 0);
    IS(clear(out + LENGTH, sizeof out - LENGTH), 1);
}

/* A half-hour in which the rate changes, also where it comes back, is a plus; one in which it is set to what it was is not. All day types used, with 48 times,
 * are the longest text. */
void table_weeks_inside(void) {
    static const char changes[] = "000101 6 1 +2+22222222222222222222222222222222222222222222+\n";
    uint8_t out[COP6_WEEK_BYTES];
    memset(table, 0, sizeof table);
    PUT(0, ENTRY_DEFAULT, 1, 0, 0, 0);
    PUT(1, ENTRY_SWITCHING, 1, 0, 0, 1);
    PUT(2, ENTRY_SWITCHING, 1, 0, 29, 2);
    PUT(3, ENTRY_SWITCHING, 1, 1, 1, 3);
    PUT(4, ENTRY_SWITCHING, 1, 1, 2, 2);
    PUT(5, ENTRY_SWITCHING, 1, 12, 15, 2);
    PUT(6, ENTRY_SWITCHING, 1, 23, 59, 8);
    IS(cop6_table_week(table, COP6_TABLE_BYTES, 0, out, sizeof out), ANSWER(COP6_DONE, 7 * 60 + 1 + 8 * 6));
    IS(memcmp(out, changes, sizeof changes - 1), 0);
    for (uint8_t i = 0; i < 48; i++)
        PUT(1 + i, ENTRY_SWITCHING, 1 + i % 8, i / 8, 0, 1 + i / 8);
    for (uint8_t i = 0; i < 7; i++)
        PUT(49 + i, ENTRY_WEEKDAYS, 2 + i, 1 + i, 1 + i, 0);
    IS(cop6_table_week(table, COP6_TABLE_BYTES, 0, out, sizeof out), ANSWER(COP6_DONE, COP6_WEEK_BYTES));
    IS(memcmp(out, "000101 6 7 ", 11), 0);
}
