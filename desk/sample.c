/* A life is a history in which each half-hour's end has a reading, each half-hour its marks and each day its flags, all by its number. A table is made of
 * entries by chance, none of which clashes with those before it. */
#include "sample.h"

#include "cop6.h"
#include "layout.h"

#include <string.h>

uint32_t sample_next(uint64_t *seed) {
    *seed = *seed * UINT64_C(6364136223846793005) + UINT64_C(1442695040888963407);
    return (uint32_t)(*seed >> 33);
}

/* Something of its own for each half-hour of a life. */
static uint32_t chance(uint32_t life, uint64_t half) {
    uint64_t seed = half * 2654435761u + life;
    sample_next(&seed);
    return sample_next(&seed);
}

/* The reading as half-hour `half` of all time begins: some 2 kWh a half-hour, more or less, and no less at midnight. */
static uint64_t reading(uint32_t life, uint64_t half) {
    uint64_t some = half % COP6_HALVES == 0 ? 0 : chance(life, half) % (SAMPLE_ADVANCE - 1);
    return (half * SAMPLE_ADVANCE + some) % COP6_READING_ROUND;
}

void sample_digits(uint8_t *out, size_t n, uint64_t number) {
    for (; n > 0; n--, number /= 10)
        out[n - 1] = (uint8_t)('0' + number % 10);
}

void sample_bytes(uint8_t *out, size_t n, uint64_t number) {
    for (; n > 0; n--, number /= 256)
        out[n - 1] = (uint8_t)(number % 256);
}

size_t sample_block(uint8_t *out, uint32_t days, uint32_t day, uint32_t k, uint32_t life) {
    size_t length = COP6_BLOCK_BYTES(days);
    memset(out, '0', COP6_BLOCK_BYTES(0));
    sample_bytes(out, LENGTH_BYTES, length - LENGTH_BYTES);
    out[HEAD_VERSION] = VERSION;
    memcpy(out + HEAD_IDENTIFIER, SAMPLE_METER, COP6_IDENTIFIER);
    sample_digits(out + HEAD_TIME, DATE_DIGITS, cop6_date(day));
    sample_digits(out + HEAD_TIME + DATE_DIGITS, TIME_DIGITS - DATE_DIGITS, k / 2 * 10000 + (k % 2 * 30 + 10) * 100);
    sample_digits(out + HEAD_DAYS, DAYS_DIGITS, days);
    for (uint32_t i = 0; i < days; i++) {
        uint8_t *record = out + COP6_BLOCK_BYTES(i);
        uint32_t ended = i == 0 ? k : COP6_HALVES;
        uint64_t first = (uint64_t)(day - i) * COP6_HALVES, reverse = 0, level2 = 0;
        sample_digits(record + RECORD_DATE, DATE_DIGITS, cop6_date(day - i));
        sample_digits(record + RECORD_START, START_DIGITS, reading(life, first));
        record[RECORD_FLAGS] = (uint8_t)(chance(life, first) % 8 == 0 ? COP6_FLAG_POWER : 0);
        for (uint32_t j = 0; j < COP6_HALVES; j++) {
            sample_digits(record + RECORD_VALUE(j), VALUE_DIGITS, reading(life, first + (j < ended ? j + 1 : ended)) % COP6_VALUE_ROUND);
            if (j < ended) {
                reverse |= (uint64_t)(chance(life, first + j) % 61 == 0) << (COP6_HALVES - 1 - j);
                level2 |= (uint64_t)(chance(life, first + j) % 67 == 0) << (COP6_HALVES - 1 - j);
            }
        }
        sample_bytes(record + RECORD_REVERSE, MARK_BYTES, reverse);
        sample_bytes(record + RECORD_LEVEL2, MARK_BYTES, level2);
    }
    return length;
}

/* ---- tables */

static void put_slot(uint8_t *slot, uint32_t entry, uint32_t type, uint32_t third, uint32_t fourth, uint32_t fifth) {
    const uint32_t bytes[SLOT_BYTES] = {entry, type, third, fourth, fifth};
    for (size_t i = 0; i < SLOT_BYTES; i++)
        slot[i] = (uint8_t)bytes[i];
}

/* Whether one of the slots before has the same entry and day type, hour and minute, or a date that is the same in a year. */
static int taken(const uint8_t *table, const uint8_t *slot) {
    size_t same_from = slot[SLOT_ENTRY] == ENTRY_SWITCHING ? SLOT_TYPE : SLOT_FOURTH, same_to = slot[SLOT_ENTRY] == ENTRY_SWITCHING ? SLOT_FIFTH : SLOT_BYTES;
    for (const uint8_t *s = table; s < slot; s += SLOT_BYTES)
        if (s[SLOT_ENTRY] == slot[SLOT_ENTRY] && memcmp(s + same_from, slot + same_from, same_to - same_from) == 0 &&
            (slot[SLOT_ENTRY] == ENTRY_SWITCHING || s[SLOT_THIRD] == slot[SLOT_THIRD] || s[SLOT_THIRD] == EVERY_YEAR || slot[SLOT_THIRD] == EVERY_YEAR))
            return 1;
    return 0;
}

/* The i-th switching time: the first ones are the beginnings of the day types that may be used, the others mostly on a half-hour. */
static void put_switching(uint8_t *slot, uint32_t i, uint32_t types, uint64_t *seed) {
    uint32_t at = i < types ? 0 : sample_next(seed) % COP6_HALVES * 30, minute = sample_next(seed) % 4 == 0 && i >= types ? sample_next(seed) % 30 : 0;
    put_slot(slot, ENTRY_SWITCHING, i < types ? i + 1 : 1 + sample_next(seed) % DAY_TYPES, at / 60, at % 60 + minute, 1 + sample_next(seed) % COP6_RATES);
}

static void put_exception(uint8_t *slot, uint32_t types, uint64_t *seed) {
    uint32_t year = sample_next(seed) % 2 == 0 ? EVERY_YEAR : sample_next(seed) % EVERY_YEAR, month, day;
    do {
        month = 1 + sample_next(seed) % 12;
        day = 1 + sample_next(seed) % 31;
    } while (cop6_day(year % EVERY_YEAR * 10000 + month * 100 + day) == COP6_NO_DAY);
    put_slot(slot, ENTRY_EXCEPTION, 1 + sample_next(seed) % types, year, month, day);
}

static void shuffle(uint8_t *table, uint64_t *seed) {
    for (uint32_t i = SLOTS - 1; i > 0; i--) {
        uint8_t slot[SLOT_BYTES], *a = table + SLOT_BYTES * i, *b = table + SLOT_BYTES * (sample_next(seed) % (i + 1));
        memcpy(slot, a, SLOT_BYTES);
        memcpy(a, b, SLOT_BYTES);
        memcpy(b, slot, SLOT_BYTES);
    }
}

void sample_table(uint8_t *out, uint32_t switchings, uint32_t exceptions, uint32_t weekdays, uint64_t *seed) {
    uint8_t *slot = out;
    uint32_t types = switchings < DAY_TYPES ? switchings : DAY_TYPES;
    memset(out, 0, COP6_TABLE_BYTES);
    for (uint32_t i = 0; i < switchings; i++, slot += SLOT_BYTES)
        do
            put_switching(slot, i, types, seed);
        while (taken(out, slot));
    for (uint32_t i = 0; i < exceptions; i++, slot += SLOT_BYTES)
        do
            put_exception(slot, types, seed);
        while (taken(out, slot));
    for (uint32_t i = 0; i < weekdays; i++, slot += SLOT_BYTES) {
        uint32_t last = i + 1 < weekdays ? i + 1 : SAMPLE_WEEKDAYS - sample_next(seed) % (SAMPLE_WEEKDAYS - i);
        put_slot(slot, ENTRY_WEEKDAYS, 1 + sample_next(seed) % types, i + 1, last, 0);
    }
    put_slot(slot, ENTRY_DEFAULT, 1 + sample_next(seed) % types, 0, 0, 0);
    shuffle(out, seed);
}
