/* The calls on a tariff switching table against plain C. */
#include "agree.h"
#include "cop6.h"
#include "layout.h"
#include "plain.h"
#include "sample.h"

#include <stdio.h>
#include <string.h>

enum { TABLES = 3000, COUNTS = 50, GUARD = 8, LAST_WEEK = LAST_DAY - 6, SECONDS_OF_DAY = 86400 };
#define LAST_SECOND (((uint64_t)LAST_DAY + 1) * SECONDS_OF_DAY - 1)

/* A byte more than a table has, so that one too long may be lent. */
static uint8_t table[COP6_TABLE_BYTES + 1];
static uint8_t text[2][COP6_WEEK_BYTES + GUARD];

#define SLOT(i) (table + SLOT_BYTES * (i))

/* ---- the calls on one table */

static void compare_rate(size_t length, uint64_t time) {
    same_answer(TABLE_RATE, cop6_table_rate(table, length, time), plain_table_rate(table, length, time));
}

/* Mostly a time at which some table switches, the second before it or after it; at times one near or past the end. */
static uint64_t some_time(uint64_t *seed) {
    uint32_t chance = sample_next(seed) % 16;
    if (chance < 2)
        return LAST_SECOND + chance;
    if (chance == 2)
        return UINT64_MAX - sample_next(seed);
    return (uint64_t)(sample_next(seed) % (LAST_DAY + 1)) * SECONDS_OF_DAY + sample_next(seed) % 1440 * 60 + (chance == 3 ? 59 : chance % 2);
}

static uint32_t some_day(uint64_t *seed) {
    uint32_t chance = sample_next(seed) % 16;
    return chance < 3 ? LAST_WEEK - 1 + chance : chance == 3 ? UINT32_MAX - sample_next(seed) % 8 : sample_next(seed) % (LAST_WEEK + 1);
}

/* The week into an output of so many bytes; the bytes behind these, and behind the text, stay. */
static uint64_t compare_week(size_t length, uint32_t day, size_t room) {
    memset(text, CLEAR, sizeof text);
    uint64_t r = cop6_table_week(table, length, day, text[0], room);
    same_answer(TABLE_WEEK, r, plain_table_week(table, length, day, text[1], room));
    same_memory(TABLE_WEEK, text[0], text[1], sizeof text[0]);
    kept(TABLE_WEEK, COP6_ANSWER(r) != COP6_DONE, text[0], sizeof text[0]);
    if (COP6_ANSWER(r) == COP6_DONE)
        kept(TABLE_WEEK, 1, text[0] + COP6_CARRIED(r), sizeof text[0] - COP6_CARRIED(r));
    return r;
}

static void compare_table(size_t length, uint64_t *seed) {
    same_answer(TABLE_JUDGE, cop6_table_judge(table, length), plain_table_judge(table, length));
    compare_rate(length, some_time(seed));
    compare_rate(length, some_time(seed));
    /* A week is ten thousand rates: it is drawn of one table in eight. */
    if (sample_next(seed) % 8 != 0)
        return;
    uint32_t day = some_day(seed);
    uint64_t r = compare_week(length, day, 0);
    if (COP6_ANSWER(r) != COP6_SHORT)
        return;
    size_t needed = COP6_CARRIED(r);
    compare_week(length, day, needed - 1);
    compare_week(length, day, needed);
    compare_week(length, day, sample_next(seed) % 2 ? needed + 1 : sizeof text[0]);
}

/* ---- tables */

static void right_table(uint64_t *seed) {
    uint32_t full = sample_next(seed) % 8;
    sample_table(table, full == 0 ? SAMPLE_SWITCHINGS : 1 + sample_next(seed) % 20, full < 2 ? SAMPLE_EXCEPTIONS : sample_next(seed) % 12,
                 sample_next(seed) % (SAMPLE_WEEKDAYS + 1), seed);
}

static void swap_slots(size_t i, size_t j) {
    uint8_t slot[SLOT_BYTES];
    memcpy(slot, SLOT(i), SLOT_BYTES);
    memcpy(SLOT(i), SLOT(j), SLOT_BYTES);
    memcpy(SLOT(j), slot, SLOT_BYTES);
}

static size_t find_slot(uint8_t entry) {
    for (size_t i = 0; i < SLOTS; i++)
        if (SLOT(i)[SLOT_ENTRY] == entry)
            return i;
    return SLOTS;
}

/* In another order of its slots a table is judged, and drawn, alike. */
static void compare_order(uint64_t *seed) {
    static uint8_t before[sizeof text[0]];
    uint32_t day = sample_next(seed) % (LAST_WEEK + 1);
    uint64_t judged = cop6_table_judge(table, COP6_TABLE_BYTES), r = compare_week(COP6_TABLE_BYTES, day, sizeof text[0]);
    memcpy(before, text[0], sizeof before);
    for (size_t i = 0; i < SLOTS; i++)
        swap_slots(i, sample_next(seed) % SLOTS);
    if (cop6_table_judge(table, COP6_TABLE_BYTES) != judged || compare_week(COP6_TABLE_BYTES, day, sizeof text[0]) != r ||
        memcmp(before, text[0], sizeof before) != 0) {
        puts("table: another order of the slots makes a difference");
        differ = 1;
    }
}

/* An entry of a kind a second time, in a slot that was unused, clashes with the first; with another byte it may still, or be out of the first one's way. */
static void compare_clash(uint8_t entry, uint64_t *seed) {
    sample_table(table, 1 + sample_next(seed) % 20, 1 + sample_next(seed) % 12, 1 + sample_next(seed) % SAMPLE_WEEKDAYS, seed);
    memcpy(SLOT(find_slot(ENTRY_UNUSED)), SLOT(find_slot(entry)), SLOT_BYTES);
    compare_table(COP6_TABLE_BYTES, seed);
    compare_order(seed);
    if (COP6_ANSWER(cop6_table_judge(table, COP6_TABLE_BYTES)) != COP6_CLASH) {
        printf("table: an entry %u that stands twice does not clash\n", entry);
        differ = 1;
    }
    uint8_t *slot = SLOT(find_slot(entry)), *at = slot + SLOT_TYPE + sample_next(seed) % (SLOT_BYTES - SLOT_TYPE);
    *at = (uint8_t)(sample_next(seed) % 2 ? *at + 1 : *at - 1);
    if (entry == ENTRY_EXCEPTION && sample_next(seed) % 2)
        slot[SLOT_THIRD] = EVERY_YEAR;
    compare_table(COP6_TABLE_BYTES, seed);
}

/* Every byte at every place of a slot of each kind. */
static void compare_bytes(uint64_t *seed) {
    for (uint8_t entry = ENTRY_UNUSED; entry <= ENTRY_DEFAULT; entry++)
        for (size_t place = 0; place < SLOT_BYTES; place++)
            for (int byte = 0; byte <= UINT8_MAX && !differ; byte++) {
                sample_table(table, 20, 12, 3, seed);
                SLOT(find_slot(entry))[place] = (uint8_t)byte;
                compare_table(COP6_TABLE_BYTES, seed);
            }
}

/* Every month and day, real or not, of a leap year, of another, of every year, and of a year past these. */
static void compare_dates(uint64_t *seed) {
    static const uint8_t years[] = {0, 23, 24, 99, EVERY_YEAR, EVERY_YEAR + 1};
    for (size_t year = 0; year < sizeof years; year++)
        for (uint8_t month = 0; month <= 13; month++)
            for (uint8_t day = 0; day <= 32 && !differ; day++) {
                sample_table(table, 20, 1, 3, seed);
                memcpy(SLOT(find_slot(ENTRY_EXCEPTION)) + SLOT_THIRD, (const uint8_t[]){years[year], month, day}, SLOT_BYTES - SLOT_THIRD);
                compare_table(COP6_TABLE_BYTES, seed);
            }
}

/* As many entries as there may be, and one or two more; none of those that must be there. */
static void compare_counts(uint64_t *seed) {
    for (uint32_t more = 0; more <= 2; more++)
        for (uint32_t other = 0; other <= 2 && !differ; other++) {
            sample_table(table, SAMPLE_SWITCHINGS - 1 + more, SAMPLE_EXCEPTIONS - 1 + other, 1, seed);
            compare_table(COP6_TABLE_BYTES, seed);
            memset(SLOT(find_slot(other % 2 ? ENTRY_DEFAULT : ENTRY_SWITCHING)), 0, SLOT_BYTES);
            compare_table(COP6_TABLE_BYTES, seed);
        }
}

static void compare_lengths(uint64_t *seed) {
    right_table(seed);
    for (size_t length = 0; length <= COP6_TABLE_BYTES + 1; length += length == 0 ? COP6_TABLE_BYTES - 1 : 1)
        compare_table(length, seed);
    uint64_t judged = cop6_table_judge(NULL, 0);
    same_answer(TABLE_JUDGE, judged, plain_table_judge(NULL, 0));
}

void compare_tables(uint64_t *seed) {
    for (int round = 0; round < TABLES && !differ; round++) {
        right_table(seed);
        compare_table(COP6_TABLE_BYTES, seed);
        compare_order(seed);
        compare_clash((uint8_t)(ENTRY_SWITCHING + round % ENTRY_DEFAULT), seed);
        right_table(seed);
        damage(table + sample_next(seed) % COP6_TABLE_BYTES, seed);
        compare_table(COP6_TABLE_BYTES, seed);
        damage(table + sample_next(seed) % COP6_TABLE_BYTES, seed);
        compare_table(COP6_TABLE_BYTES, seed);
    }
    for (int round = 0; round < COUNTS && !differ; round++) {
        compare_counts(seed);
        compare_lengths(seed);
    }
    compare_bytes(seed);
    compare_dates(seed);
}
