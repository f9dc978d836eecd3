/* Holds the library against the plain C of the same calls, on blocks, ledgers and tables that are right, nearly right and damaged: the same answers, the same
 * memory. Prints how often each answer of each call was given. Exit status 0 where the two never differ and every answer that a call can give was seen. */
#include "agree.h"
#include "cop6.h"
#include "layout.h"
#include "plain.h"
#include "sample.h"

#include <stdio.h>
#include <string.h>

enum { ROUNDS = 20000, MOST = 8, LEDGER = COP6_LEDGER_BYTES(MOST), BLOCK = COP6_BLOCK_BYTES(MOST), FILINGS = 4 };
enum { RUNS_ROUND = COP6_READING_ROUND / (COP6_HALVES * SAMPLE_ADVANCE) }; /* the day in which a sample's readings do so */

/* ---- what was seen */

/* Which answers a call can give; a day, date, length or listing is not an answer, and is counted as 0 where there is none to give, else as 1. */
static const struct {
    const char *name;
    uint8_t answers[9];
    size_t count;
} calls[CALLS] = {
    [DAY] = {"day", {0, 1}, 2},
    [DATE] = {"date", {0, 1}, 2},
    [LEDGER_LENGTH] = {"ledger_length", {1}, 1},
    [READ] = {"read", {COP6_DONE, COP6_NO_BLOCK, COP6_FIELD, COP6_INCONSISTENT}, 4},
    [LISTING] = {"listing", {0, 1}, 2},
    [HEADER] = {"header", {COP6_DONE, COP6_SHORT, COP6_NO_BLOCK, COP6_FIELD, COP6_INCONSISTENT}, 5},
    [OPEN] = {"open", {COP6_DONE, COP6_LENGTH, COP6_RANGE}, 3},
    [FILE_BLOCK] = {"file", {COP6_DONE, COP6_LENGTH, COP6_DAMAGED, COP6_NO_BLOCK, COP6_FIELD, COP6_INCONSISTENT, COP6_OTHER_METER, COP6_DIFFERS}, 8},
    [DIFFERS] = {"differs", {COP6_DONE, COP6_LENGTH, COP6_DAMAGED, COP6_SHORT, COP6_NO_BLOCK, COP6_FIELD, COP6_INCONSISTENT, COP6_OTHER_METER}, 8},
    [IDENTIFIER] = {"identifier", {COP6_DONE, COP6_LENGTH, COP6_DAMAGED, COP6_SHORT}, 4},
    [WINDOW] = {"window", {COP6_DONE, COP6_LENGTH, COP6_DAMAGED}, 3},
    [MISSING] = {"missing", {COP6_DONE, COP6_LENGTH, COP6_DAMAGED, COP6_RANGE}, 4},
    [SUMMARY] = {"summary", {COP6_DONE, COP6_LENGTH, COP6_DAMAGED, COP6_RANGE, COP6_SHORT}, 5},
    [FLAGS] = {"flags", {COP6_DONE, COP6_LENGTH, COP6_DAMAGED, COP6_RANGE}, 4},
    [HALVES] = {"halves", {COP6_DONE, COP6_LENGTH, COP6_DAMAGED, COP6_RANGE, COP6_SHORT}, 5},
    [TABLE_JUDGE] = {"table_judge", {COP6_DONE, COP6_RANGE, COP6_CLASH}, 3},
    [TABLE_RATE] = {"table_rate", {COP6_DONE, COP6_RANGE, COP6_CLASH}, 3},
    [TABLE_WEEK] = {"table_week", {COP6_DONE, COP6_RANGE, COP6_SHORT, COP6_CLASH}, 4},
};
static unsigned long given[CALLS][16];

enum first_difference { NONE, START, VALUE, REVERSE, LEVEL2, DAY_FLAGS, DIFFERENCES };
static const char *const differences[DIFFERENCES] = {"none", "start", "half-hour value", "reverse mark", "Level 2 mark", "flags"};
static unsigned long first_differences[DIFFERENCES];
int differ;

static void same(enum call call, uint32_t answer, uint64_t library, uint64_t plain) {
    given[call][answer & 15]++;
    if (library != plain) {
        printf("%s: the library answers %u with %u, plain C %u with %u\n", calls[call].name, COP6_ANSWER(library), COP6_CARRIED(library), COP6_ANSWER(plain),
               COP6_CARRIED(plain));
        differ = 1;
    }
}

void same_answer(enum call call, uint64_t library, uint64_t plain) { same(call, COP6_ANSWER(library), library, plain); }

void same_memory(enum call call, const void *library, const void *plain, size_t length) {
    if (memcmp(library, plain, length) != 0) {
        printf("%s: the memory left differs\n", calls[call].name);
        differ = 1;
    }
}

void kept(enum call call, int refused, const void *output, size_t length) {
    const uint8_t *at = output;
    if (refused && (at[0] != CLEAR || memcmp(at, at + 1, length - 1) != 0)) {
        printf("%s: a refusal changed the output\n", calls[call].name);
        differ = 1;
    }
}

static enum first_difference part_of(const uint64_t *x) {
    if (x[COP6_DIFFERS_PART] == COP6_PART_START)
        return START;
    if (x[COP6_DIFFERS_PART] == COP6_PART_FLAGS)
        return DAY_FLAGS;
    if (COP6_HALF_VALUE(x[COP6_DIFFERS_HELD]) != COP6_HALF_VALUE(x[COP6_DIFFERS_SENT]))
        return VALUE;
    return COP6_HALF_REVERSE(x[COP6_DIFFERS_HELD]) != COP6_HALF_REVERSE(x[COP6_DIFFERS_SENT]) ? REVERSE : LEVEL2;
}

/* ---- what is lent */

/* A ledger of the library's and one of the plain C's, a block, and numbers that both may write. */
struct lent {
    uint8_t ledger[LEDGER], other[LEDGER], block[BLOCK];
    size_t length, lent, block_length;
    uint32_t first, days;
};

static uint64_t numbers[2][COP6_HALVES + 2];
static uint8_t bytes[2][COP6_LISTING_BYTES(MOST) + 2];

static void clear_output(void) {
    memset(numbers, CLEAR, sizeof numbers);
    memset(bytes, CLEAR, sizeof bytes);
}

static void same_numbers(enum call call, uint64_t r) {
    same_memory(call, numbers[0], numbers[1], sizeof numbers[0]);
    kept(call, COP6_ANSWER(r) != COP6_DONE, numbers[0], sizeof numbers[0]);
}

/* A length of output that is at times too short, mostly right, at times longer. */
static size_t some_room(size_t right, uint64_t *seed) {
    uint32_t chance = sample_next(seed) % 8;
    return chance == 0 ? sample_next(seed) % right : chance == 1 ? right - 1 : chance == 2 ? right + 2 : right;
}

void damage(uint8_t *at, uint64_t *seed) {
    switch (sample_next(seed) % 4) {
    case 0: *at = (uint8_t)('0' + sample_next(seed) % 10); break;
    case 1: *at = (uint8_t)(*at ^ 1u << sample_next(seed) % 8); break;
    case 2: *at = (uint8_t)(*at + 1); break;
    default: *at = (uint8_t)sample_next(seed); break;
    }
}

/* Another PPP, which may stand there. */
static void rename_block(uint8_t *identifier, uint64_t *seed) {
    static const char free_characters[] = "ABCXYZabcxyz0189";
    for (size_t i = 0; i < COP6_PPP; i++)
        identifier[i] = (uint8_t)free_characters[sample_next(seed) % (sizeof free_characters - 1)];
}

/* Another flag, mark, value or start in a block that mostly stays right: what a ledger that holds the day must refuse, and tell as the first difference. */
static void alter(uint8_t *block, uint32_t sent, uint32_t k, uint64_t *seed) {
    uint32_t what = sample_next(seed) % 5, i = what == 4 ? sent - 1 : sample_next(seed) % sent, ended = i == 0 ? k : COP6_HALVES;
    uint32_t j = sample_next(seed) % COP6_HALVES;
    uint8_t *record = block + COP6_BLOCK_BYTES(i);
    switch (what) {
    case 0: record[RECORD_FLAGS] ^= (uint8_t)(COP6_FLAG_RESET << sample_next(seed) % 3); break;
    case 1: record[RECORD_REVERSE + j / 8] ^= (uint8_t)(j < ended ? 0x80u >> j % 8 : 0); break;
    case 2: record[RECORD_LEVEL2 + j / 8] ^= (uint8_t)(j < ended ? 0x80u >> j % 8 : 0); break;
    case 3: memcpy(record + RECORD_VALUE(j), record + RECORD_VALUE(j + 1 < ended ? j + 1 : j), VALUE_DIGITS); break;
    default: record[RECORD_FLAGS - 1] ^= 1; break;
    }
}

static void make_block(struct lent *l, uint32_t life, uint64_t *seed) {
    uint32_t sent = sample_next(seed) % (MOST + 1), day = l->first + sample_next(seed) % (l->days + 2), k = sample_next(seed) % COP6_HALVES;
    if (day > LAST_DAY)
        day = LAST_DAY;
    l->block_length = sample_block(l->block, sent, day, k, life + (sample_next(seed) % 8 == 0));
    if (sent > 0 && sample_next(seed) % 4 == 0)
        alter(l->block, sent, k, seed);
    if (sample_next(seed) % 2 == 0)
        rename_block(l->block + HEAD_IDENTIFIER, seed);
    if (sample_next(seed) % 8 == 0)
        memcpy(l->block + HEAD_RESET, sample_next(seed) % 2 ? "24022907" : "00000001", HEAD_RATES - HEAD_RESET);
    for (size_t at = HEAD_KWH; at < HEAD_DAYS; at = at == HEAD_CUMULATIVE ? HEAD_RATES : at + REGISTER_DIGITS)
        l->block[at + l->days % REGISTER_DIGITS] = (uint8_t)('0' + sample_next(seed) % 10);
    for (uint32_t i = sample_next(seed) % 3; i > 0; i--) {
        size_t within = sample_next(seed) % 2 ? l->block_length : COP6_BLOCK_BYTES(0);
        damage(l->block + sample_next(seed) % within, seed);
    }
    if (sample_next(seed) % 16 == 0)
        l->block_length = sample_next(seed) % (l->block_length + 1);
}

/* Puts a number in both ledgers. */
static void put_in_ledger(struct lent *l, size_t at, size_t n, uint32_t number) {
    for (size_t i = 0; i < n; i++)
        l->ledger[at + i] = l->other[at + i] = (uint8_t)(number >> 8 * (n - 1 - i));
}

/* At times a byte of the ledger that is wrong; a field of a room at its edge or past it; a number of days at its edge, or that the length lent is not for. */
static void damage_ledger(struct lent *l, uint64_t *seed) {
    static const struct {
        size_t at, length;
        uint32_t number;
    } edges[] = {{ROOM_STATE, 1, COP6_HALVES + 1},
                 {ROOM_STATE, 1, COP6_HALVES + 2},
                 {ROOM_START, START_BYTES, COP6_READING_ROUND - 1},
                 {ROOM_START, START_BYTES, COP6_READING_ROUND},
                 {ROOM_VALUES, VALUE_BYTES, COP6_VALUE_ROUND - 1},
                 {ROOM_VALUES, VALUE_BYTES, COP6_VALUE_ROUND}};
    static const uint32_t days[] = {0, COP6_MOST_DAYS, COP6_MOST_DAYS + 1, UINT16_MAX};
    size_t at = sample_next(seed) % l->length, chance = sample_next(seed) % 64;
    l->lent = sample_next(seed) % 32 == 0 ? sample_next(seed) % (l->length + 1) : l->length;
    if (chance < 4) {
        damage(l->ledger + at, seed);
        l->other[at] = l->ledger[at];
    } else if (chance < 10) {
        put_in_ledger(l, COP6_LEDGER_BYTES(at % l->days) + edges[chance - 4].at, edges[chance - 4].length, edges[chance - 4].number);
    } else if (chance < 14) {
        put_in_ledger(l, LEDGER_DAYS, DAY_BYTES, days[chance - 10]);
        l->lent = chance == 10 ? COP6_LEDGER_BYTES(0) : l->length;
    }
}

/* ---- the calls */

static void compare_days(uint64_t *seed) {
    uint32_t y = sample_next(seed) % 110, m = sample_next(seed) % 14, d = sample_next(seed) % 33, date = y * 10000 + m * 100 + d;
    uint32_t days = sample_next(seed), day = days % 16 == 0 ? UINT32_MAX - days : sample_next(seed) % (LAST_DAY + 500);
    same(DAY, cop6_day(date) != COP6_NO_DAY, cop6_day(date), plain_day(date));
    same(DATE, cop6_date(day) != 0, cop6_date(day), plain_date(day));
    same(LEDGER_LENGTH, 1, cop6_ledger_length(days), plain_ledger_length(days));
}

static void compare_open(struct lent *l, uint64_t *seed) {
    uint8_t name[COP6_IDENTIFIER];
    uint32_t chance = sample_next(seed) % 8, first = l->first, days = l->days;
    size_t twelve = chance == 0 ? sample_next(seed) % COP6_IDENTIFIER : COP6_IDENTIFIER;
    memcpy(name, SAMPLE_METER, sizeof name);
    if (chance == 1)
        damage(name + sample_next(seed) % COP6_IDENTIFIER, seed);
    if (chance > 5)
        rename_block(name, seed);
    if (chance == 2)
        first = LAST_DAY - days + sample_next(seed) % 4;
    if (chance == 3)
        first = UINT32_MAX - sample_next(seed) % 8;
    if (chance == 4)
        days = sample_next(seed) % 2 ? 0 : COP6_MOST_DAYS + 1 + sample_next(seed) % 2;
    size_t length = chance == 5 ? sample_next(seed) % (l->length + 1) : l->length;
    memset(l->ledger, CLEAR, sizeof l->ledger);
    memset(l->other, CLEAR, sizeof l->other);
    uint64_t r = cop6_open(l->ledger, length, name, twelve, first, days);
    same_answer(OPEN, r, plain_open(l->other, length, name, twelve, first, days));
    same_memory(OPEN, l->ledger, l->other, LEDGER);
    kept(OPEN, COP6_ANSWER(r) != COP6_DONE, l->ledger, LEDGER);
    cop6_open(l->ledger, l->length, (const uint8_t *)SAMPLE_METER, COP6_IDENTIFIER, l->first, l->days);
    memcpy(l->other, l->ledger, l->length);
}

static void compare_block(const struct lent *l, uint64_t *seed) {
    const uint8_t *b = l->block;
    size_t n = l->block_length;
    uint64_t read = cop6_read(b, n);
    same_answer(READ, read, plain_read(b, n));

    clear_output();
    size_t room = some_room(COP6_ANSWER(read) != COP6_DONE ? strlen("REFUSED 10\n") : COP6_LISTING_BYTES(COP6_CARRIED(read)), seed);
    uint64_t text = cop6_listing(b, n, bytes[0], room);
    same(LISTING, text != 0, text, plain_listing(b, n, bytes[1], room));
    same_memory(LISTING, bytes[0], bytes[1], sizeof bytes[0]);
    kept(LISTING, text == 0, bytes[0], sizeof bytes[0]);

    room = some_room(COP6_HEADER, seed);
    uint64_t r = cop6_header(b, n, numbers[0], room);
    same_answer(HEADER, r, plain_header(b, n, numbers[1], room));
    same_numbers(HEADER, r);
}

static void compare_filing(struct lent *l, uint64_t *seed) {
    clear_output();
    size_t room = some_room(COP6_DIFFERENCE, seed);
    uint64_t r = cop6_differs(l->ledger, l->lent, l->block, l->block_length, numbers[0], room);
    same_answer(DIFFERS, r, plain_differs(l->other, l->lent, l->block, l->block_length, numbers[1], room));
    same_numbers(DIFFERS, r);
    same_memory(DIFFERS, l->ledger, l->other, l->length);

    uint8_t before[LEDGER];
    memcpy(before, l->ledger, l->length);
    uint64_t filed = cop6_file(l->ledger, l->lent, l->block, l->block_length);
    same_answer(FILE_BLOCK, filed, plain_file(l->other, l->lent, l->block, l->block_length));
    same_memory(FILE_BLOCK, l->ledger, l->other, l->length);
    if (COP6_ANSWER(filed) != COP6_DONE)
        same_memory(FILE_BLOCK, l->ledger, before, l->length);
    if (COP6_ANSWER(r) != COP6_DONE)
        return;
    first_differences[COP6_CARRIED(r) == 0 ? NONE : part_of(numbers[0])]++;
    if (COP6_CARRIED(r) != (COP6_ANSWER(filed) == COP6_DIFFERS)) {
        puts("differs: does not tell what file refuses with 12");
        differ = 1;
    }
}

static void compare_questions(const struct lent *l, uint64_t *seed) {
    uint32_t chance = sample_next(seed), day = chance % 16 == 0 ? UINT32_MAX - chance : l->first - 1 + chance % (l->days + 2);
    size_t room = some_room(COP6_IDENTIFIER, seed);
    clear_output();
    uint64_t r = cop6_identifier(l->ledger, l->lent, bytes[0], room);
    same_answer(IDENTIFIER, r, plain_identifier(l->other, l->lent, bytes[1], room));
    same_memory(IDENTIFIER, bytes[0], bytes[1], sizeof bytes[0]);
    kept(IDENTIFIER, COP6_ANSWER(r) != COP6_DONE, bytes[0], sizeof bytes[0]);
    same_answer(WINDOW, cop6_window(l->ledger, l->lent), plain_window(l->other, l->lent));
    same_answer(MISSING, cop6_missing(l->ledger, l->lent, day), plain_missing(l->other, l->lent, day));
    same_answer(FLAGS, cop6_flags(l->ledger, l->lent, day), plain_flags(l->other, l->lent, day));

    room = some_room(COP6_SUMMARY, seed);
    r = cop6_summary(l->ledger, l->lent, day, numbers[0], room);
    same_answer(SUMMARY, r, plain_summary(l->other, l->lent, day, numbers[1], room));
    same_numbers(SUMMARY, r);
    clear_output();
    room = some_room(COP6_HALVES, seed);
    r = cop6_halves(l->ledger, l->lent, day, numbers[0], room);
    same_answer(HALVES, r, plain_halves(l->other, l->lent, day, numbers[1], room));
    same_numbers(HALVES, r);
    same_memory(HALVES, l->ledger, l->other, l->length);
}

/* Every byte at every place of the identifier: of a ledger that is opened, of a block that is read and filed, of a ledger that is filed in. */
static void compare_identifiers(struct lent *l, uint64_t *seed) {
    for (size_t place = 0; place < COP6_IDENTIFIER; place++)
        for (int byte = 0; byte <= UINT8_MAX; byte++) {
            uint8_t name[COP6_IDENTIFIER];
            memcpy(name, SAMPLE_METER, sizeof name);
            name[place] = (uint8_t)byte;
            same_answer(OPEN, cop6_open(l->ledger, l->length, name, sizeof name, l->first, l->days),
                        plain_open(l->other, l->length, name, sizeof name, l->first, l->days));
            same_memory(OPEN, l->ledger, l->other, l->length);
            compare_open(l, seed);
            l->lent = l->length;
            l->block_length = sample_block(l->block, 1, l->first, 1, 0);
            memcpy(l->block + HEAD_IDENTIFIER, name, sizeof name);
            compare_block(l, seed);
            compare_filing(l, seed);
            memcpy(l->block + HEAD_IDENTIFIER, SAMPLE_METER, sizeof name);
            put_in_ledger(l, place, 1, (uint32_t)byte);
            compare_filing(l, seed);
        }
}

/* ---- the whole */

/* Prints what was seen; 1 where something was not. */
static int unseen(void) {
    int none = 0;
    for (int call = 0; call < CALLS; call++) {
        printf("%s:", calls[call].name);
        for (size_t i = 0; i < calls[call].count; i++) {
            unsigned long times = given[call][calls[call].answers[i]];
            printf(" %u %lu times%s", calls[call].answers[i], times, i + 1 < calls[call].count ? "," : "\n");
            none |= times == 0;
        }
    }
    printf("first difference:");
    for (int i = 0; i < DIFFERENCES; i++) {
        printf(" %s %lu times%s", differences[i], first_differences[i], i + 1 < DIFFERENCES ? "," : "\n");
        none |= first_differences[i] == 0;
    }
    if (none)
        puts("an answer that can be given was not seen");
    return none;
}

int main(void) {
    uint64_t seed = 1;
    static struct lent l;
    for (int round = 0; round < ROUNDS && !differ; round++) {
        l.days = 1 + sample_next(&seed) % MOST;
        uint32_t where = sample_next(&seed) % 6;
        l.first = where == 0 ? 0 : where == 1 ? RUNS_ROUND - l.days / 2 : where < 4 ? LAST_DAY + 1 - l.days : 8820;
        l.length = (size_t)cop6_ledger_length(l.days);
        uint32_t life = sample_next(&seed) % 2;
        compare_days(&seed);
        compare_open(&l, &seed);
        for (int filing = 0; filing < FILINGS && !differ; filing++) {
            make_block(&l, life, &seed);
            damage_ledger(&l, &seed);
            compare_block(&l, &seed);
            compare_filing(&l, &seed);
            compare_questions(&l, &seed);
        }
    }
    if (!differ)
        compare_identifiers(&l, &seed);
    if (!differ)
        compare_tables(&seed);
    return differ ? 1 : unseen();
}
