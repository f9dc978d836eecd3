/* Calls the library as a C program does, with cases reckoned by hand: every function's answers, what it carries, and the memory that it leaves. Exit status 0
 * where all is right. */
#include "calls.h"
#include "sample.h"

#include <stdio.h>
#include <string.h>

uint8_t ledger[LEDGER], ledger_before[LEDGER], block[COP6_BLOCK_BYTES(2)];
uint64_t numbers[NUMBERS];
size_t block_length;
static int wrong;

void is(const char *file, int line, const char *what, unsigned long long number, unsigned long long should) {
    if (number != should) {
        printf("%s, line %d: %s is %llu, and should be %llu\n", file, line, what, number, should);
        wrong = 1;
    }
}

int clear(const void *memory, size_t length) {
    const uint8_t *at = memory;
    return at[0] == CLEAR && memcmp(at, at + 1, length - 1) == 0;
}

size_t header_of(int count, const char *time) {
    size_t length = COP6_BLOCK_BYTES(count);
    memset(block, '0', COP6_BLOCK_BYTES(0));
    sample_bytes(block, LENGTH_BYTES, length - LENGTH_BYTES);
    block[HEAD_VERSION] = VERSION;
    memcpy(block + HEAD_IDENTIFIER, METER, COP6_IDENTIFIER);
    memcpy(block + HEAD_TIME, time, TIME_DIGITS);
    sample_digits(block + HEAD_DAYS, DAYS_DIGITS, (uint64_t)count);
    return length;
}

void record_of(size_t i, const char *date_and_start, const char *value, const char *others) {
    memcpy(RECORD(i), date_and_start, DATE_DIGITS + START_DIGITS);
    RECORD(i)[RECORD_FLAGS] = 0;
    for (size_t j = 0; j < COP6_HALVES; j++)
        memcpy(RECORD(i) + RECORD_VALUE(j), j == 0 ? value : others, VALUE_DIGITS);
    memset(RECORD(i) + RECORD_REVERSE, 0, 2 * MARK_BYTES);
}

void one_day(const char *time) {
    block_length = header_of(1, time);
    record_of(0, "24022900471100", "1150", "1230");
}

void two_days(void) {
    block_length = header_of(2, "240301001000");
    record_of(0, "24030100471230", "1230", "1230");
    record_of(1, "24022900471100", "1150", "1230");
    RECORD(1)[RECORD_FLAGS] = COP6_FLAG_POWER | COP6_FLAG_RESET;
}

void open_ledger(void) { IS(cop6_open(ledger, sizeof ledger, METER, COP6_IDENTIFIER, DAY - 1, DAYS), ANSWER(COP6_DONE, 0)); }

void file_one_day(void) {
    open_ledger();
    one_day("240229011000");
    IS(cop6_file(ledger, sizeof ledger, block, block_length), ANSWER(COP6_DONE, 2));
    memcpy(ledger_before, ledger, sizeof ledger);
}

/* ---- the numbers of the rules */

/* Each by its figure; everywhere else they go by their names. */
static void figures(void) {
    IS(COP6_IDENTIFIER, 12);
    IS(COP6_PPP, 3);
    IS(COP6_HALVES, 48);
    IS(COP6_RATES, 8);
    IS(COP6_HEADER, 28);
    IS(COP6_SUMMARY, 6);
    IS(COP6_DIFFERENCE, 4);
    IS(COP6_VALUE_ROUND, 10000);
    IS(COP6_READING_ROUND, 100000000);
    IS(COP6_MOST_DAYS, 451);
    IS(COP6_LISTING_BYTES(1), 62);
    IS(COP6_BLOCK_BYTES(0), 112);
    IS(COP6_BLOCK_BYTES(1), 331);
    IS(COP6_BLOCK_BYTES(COP6_MOST_DAYS), 98881);
    IS(COP6_LEDGER_BYTES(0), 16);
    IS(COP6_LEDGER_BYTES(1), 130);
    IS(COP6_LEDGER_BYTES(COP6_MOST_DAYS), 51430);
    IS(COP6_TABLE_BYTES, 440);
    IS(COP6_WEEK_BYTES, 812);
}

/* ---- blocks */

static void reading(void) {
    one_day("240229011000");
    IS(cop6_read(block, block_length), ANSWER(COP6_DONE, 1));
    IS(cop6_read(NULL, 0), ANSWER(COP6_NO_BLOCK, 0));
    IS(cop6_read(block, block_length - 1), ANSWER(COP6_NO_BLOCK, 0));
    RECORD(0)[RECORD_VALUE(1) - 1] = ' ';
    IS(cop6_read(block, block_length), ANSWER(COP6_FIELD, 127));
    RECORD(0)[RECORD_VALUE(1) - 1] = '0';
    IS(cop6_read(block, block_length), ANSWER(COP6_DONE, 1));
    RECORD(0)[RECORD_VALUE(2)] = '9';
    IS(cop6_read(block, block_length), ANSWER(COP6_INCONSISTENT, 0));
    two_days();
    IS(cop6_read(block, block_length), ANSWER(COP6_DONE, 2));
}

/* The listing: whole, or nothing of it. */
static void listing(void) {
    uint8_t out[COP6_LISTING_BYTES(1) + 2];
    one_day("240229011000");
    memset(out, CLEAR, sizeof out);
    IS(cop6_listing(block, block_length, out, COP6_LISTING_BYTES(1) - 1), 0);
    IS(clear(out, sizeof out), 1);
    IS(cop6_listing(block, block_length, NULL, 0), 0);
    IS(cop6_listing(block, block_length, out, sizeof out), COP6_LISTING_BYTES(1));
    IS(memcmp(out, "ABCX24000017 240229011000 001\n240229 02 00471100 000130 00 00\n\xee\xee", sizeof out), 0);
    IS(cop6_listing(NULL, 0, out, sizeof out), 10);
    IS(memcmp(out, "REFUSED 8\n", 10), 0);
}

static void header_refused(void) {
    memset(numbers, CLEAR, sizeof numbers);
    one_day("240229011000");
    IS(cop6_header(NULL, 0, numbers, 0), ANSWER(COP6_NO_BLOCK, 0));
    IS(cop6_header(block, block_length - 1, numbers, NUMBERS), ANSWER(COP6_NO_BLOCK, 0));
    block[HEAD_CURRENT - 1] = 'x';
    IS(cop6_header(block, block_length, numbers, NUMBERS), ANSWER(COP6_FIELD, 29));
    IS(cop6_header(block, block_length, numbers, COP6_HEADER - 1), ANSWER(COP6_FIELD, 29));
    one_day("240229011000");
    block[HEAD_RATES - 1] = '1';
    IS(cop6_header(block, block_length, numbers, NUMBERS), ANSWER(COP6_INCONSISTENT, 0));
    one_day("240229011000");
    IS(cop6_header(block, block_length, numbers, COP6_HEADER - 1), ANSWER(COP6_SHORT, COP6_HEADER));
    IS(cop6_header(block, block_length, NULL, 0), ANSWER(COP6_SHORT, COP6_HEADER));
    IS(clear(numbers, sizeof numbers), 1);
}

static void header(void) {
    memset(numbers, CLEAR, sizeof numbers);
    one_day("240229011000");
    memcpy(block + HEAD_KWH, "004711" "000160" "999999" "000300" "240201" "07", HEAD_RATES - HEAD_KWH);
    memcpy(block + HEAD_RATES, "000001" "000020" "000300" "004000" "050000" "600000" "000000" "000008", HEAD_DAYS - HEAD_RATES);
    IS(cop6_header(block, block_length, numbers, NUMBERS), ANSWER(COP6_DONE, 1));
    for (int i = 0; i < COP6_IDENTIFIER; i++)
        IS(numbers[COP6_HEAD_IDENTIFIER + i], METER[i]);
    IS(numbers[COP6_HEAD_TIME], 762484200);
    IS(numbers[COP6_HEAD_KWH], 4711);
    IS(numbers[COP6_HEAD_CURRENT], 160);
    IS(numbers[COP6_HEAD_PREVIOUS], 999999);
    IS(numbers[COP6_HEAD_CUMULATIVE], 300);
    IS(numbers[COP6_HEAD_RESET], 8797 + 1);
    IS(numbers[COP6_HEAD_RESETS], 7);
    static const uint64_t rates[COP6_RATES] = {1, 20, 300, 4000, 50000, 600000, 0, 8};
    IS(memcmp(numbers + COP6_HEAD_RATES, rates, sizeof rates), 0);
    IS(numbers[COP6_HEAD_DAYS], 1);
    IS(clear(numbers + COP6_HEADER, sizeof numbers - COP6_HEADER * sizeof *numbers), 1);
    block_length = header_of(0, "000101000000");
    memcpy(block + HEAD_RESET, "000101", DATE_DIGITS);
    IS(cop6_header(block, block_length, numbers, COP6_HEADER), ANSWER(COP6_DONE, 0));
    IS(numbers[COP6_HEAD_TIME], 0);
    IS(numbers[COP6_HEAD_RESET], 1);
    memcpy(block + HEAD_RESET, "000000", DATE_DIGITS);
    IS(cop6_header(block, block_length, numbers, COP6_HEADER), ANSWER(COP6_DONE, 0));
    IS(numbers[COP6_HEAD_RESET], 0);
    IS(numbers[COP6_HEAD_DAYS], 0);
}

/* ---- the ledger */

static void opening(void) {
    IS(cop6_ledger_length(DAYS), COP6_LEDGER_BYTES(DAYS));
    IS(cop6_ledger_length(COP6_MOST_DAYS), COP6_LEDGER_BYTES(COP6_MOST_DAYS));
    memset(ledger, CLEAR, sizeof ledger);
    IS(cop6_open(ledger, sizeof ledger, METER, COP6_IDENTIFIER - 1, DAY - 1, DAYS), ANSWER(COP6_RANGE, 0));
    IS(cop6_open(ledger, sizeof ledger, METER, COP6_IDENTIFIER, COP6_NO_DAY, DAYS), ANSWER(COP6_RANGE, 0));
    IS(cop6_open(ledger, sizeof ledger, METER, COP6_IDENTIFIER, LAST_DAY - DAYS + 2, DAYS), ANSWER(COP6_RANGE, 0));
    IS(cop6_open(ledger, sizeof ledger, METER, COP6_IDENTIFIER, DAY - 1, 0), ANSWER(COP6_RANGE, 0));
    IS(cop6_open(ledger, sizeof ledger, METER, COP6_IDENTIFIER, DAY - 1, DAYS + 1), ANSWER(COP6_LENGTH, 0));
    IS(clear(ledger, sizeof ledger), 1);
    IS(cop6_window(ledger, sizeof ledger), ANSWER(COP6_DAMAGED, 0));
    open_ledger();
    IS(cop6_window(ledger, sizeof ledger), ANSWER(COP6_DONE, (uint64_t)(DAY - 1) << 16 | DAYS));
    IS(COP6_FIRST(cop6_window(ledger, sizeof ledger)), DAY - 1);
    IS(COP6_COUNT(cop6_window(ledger, sizeof ledger)), DAYS);
    IS(cop6_window(ledger, sizeof ledger - 1), ANSWER(COP6_LENGTH, 0));
    IS(cop6_window(NULL, 0), ANSWER(COP6_LENGTH, 0));
}

static void identifier(void) {
    uint8_t out[COP6_IDENTIFIER + 2];
    memset(out, CLEAR, sizeof out);
    open_ledger();
    IS(cop6_identifier(NULL, 0, out, 0), ANSWER(COP6_LENGTH, 0));
    IS(cop6_identifier(ledger, sizeof ledger - 1, out, sizeof out), ANSWER(COP6_LENGTH, 0));
    IS(cop6_identifier(ledger, sizeof ledger, out, COP6_IDENTIFIER - 1), ANSWER(COP6_SHORT, COP6_IDENTIFIER));
    IS(cop6_identifier(ledger, sizeof ledger, NULL, 0), ANSWER(COP6_SHORT, COP6_IDENTIFIER));
    ledger[LEDGER - 1] = 1;
    IS(cop6_identifier(ledger, sizeof ledger, out, COP6_IDENTIFIER - 1), ANSWER(COP6_DAMAGED, 0));
    IS(clear(out, sizeof out), 1);
    open_ledger();
    IS(cop6_identifier(ledger, sizeof ledger, out, sizeof out), ANSWER(COP6_DONE, 0));
    IS(memcmp(out, "ABCX24000017\xee\xee", sizeof out), 0);
}

/* PPP may be of letters of either case and digits; a ledger keeps the one that it was opened with, and takes blocks of its meter under any. */
static void naming(void) {
    uint8_t name[COP6_IDENTIFIER];
    memcpy(name, "a9ZX24000017", sizeof name);
    IS(cop6_open(ledger, sizeof ledger, name, COP6_IDENTIFIER, DAY - 1, DAYS), ANSWER(COP6_DONE, 0));
    one_day("240229011000");
    memcpy(block + HEAD_IDENTIFIER, "zzz", COP6_PPP);
    IS(cop6_read(block, block_length), ANSWER(COP6_DONE, 1));
    IS(cop6_file(ledger, sizeof ledger, block, block_length), ANSWER(COP6_DONE, 2));
    IS(memcmp(ledger, name, sizeof name), 0);
    memcpy(ledger_before, ledger, sizeof ledger);
    for (size_t i = COP6_PPP; i < COP6_IDENTIFIER; i++) {
        uint8_t was = block[HEAD_IDENTIFIER + i];
        block[HEAD_IDENTIFIER + i] = i == COP6_PPP ? 'Y' : '9';
        IS(cop6_file(ledger, sizeof ledger, block, block_length), ANSWER(COP6_OTHER_METER, 0));
        block[HEAD_IDENTIFIER + i] = 'a';
        IS(cop6_file(ledger, sizeof ledger, block, block_length), ANSWER(COP6_FIELD, HEAD_IDENTIFIER));
        block[HEAD_IDENTIFIER + i] = was;
    }
    name[COP6_PPP] = 'x';
    IS(cop6_open(ledger, sizeof ledger, name, COP6_IDENTIFIER, DAY - 1, DAYS), ANSWER(COP6_RANGE, 0));
    name[COP6_PPP] = 'X';
    name[0] = '-';
    IS(cop6_open(ledger, sizeof ledger, name, COP6_IDENTIFIER, DAY - 1, DAYS), ANSWER(COP6_RANGE, 0));
    IS(memcmp(ledger, ledger_before, sizeof ledger), 0);
    ledger[0] = '-';
    IS(cop6_file(ledger, sizeof ledger, block, block_length), ANSWER(COP6_DAMAGED, 0));
    ledger[0] = 'q';
    IS(cop6_file(ledger, sizeof ledger, block, block_length), ANSWER(COP6_DONE, 0));
}

static void filing(void) {
    open_ledger();
    memcpy(ledger_before, ledger, sizeof ledger);
    one_day("240229011000");
    IS(cop6_file(ledger, sizeof ledger - 1, block, block_length), ANSWER(COP6_LENGTH, 0));
    IS(cop6_file(ledger, sizeof ledger, block, COP6_BLOCK_BYTES(0) - 1), ANSWER(COP6_NO_BLOCK, 0));
    block[HEAD_TIME - 1] = '8';
    IS(cop6_file(ledger, sizeof ledger, block, block_length), ANSWER(COP6_OTHER_METER, 0));
    block[HEAD_TIME - 1] = 'a';
    IS(cop6_file(ledger, sizeof ledger, block, block_length), ANSWER(COP6_FIELD, 5));
    IS(memcmp(ledger, ledger_before, sizeof ledger), 0);
    file_one_day();
    IS(cop6_file(ledger, sizeof ledger, block, block_length), ANSWER(COP6_DONE, 0));
    memcpy(RECORD(0) + RECORD_START, "00471101", START_DIGITS);
    IS(cop6_file(ledger, sizeof ledger, block, block_length), ANSWER(COP6_DIFFERS, 0));
    IS(memcmp(ledger, ledger_before, sizeof ledger), 0);
    two_days();
    IS(cop6_file(ledger, sizeof ledger, block, block_length), ANSWER(COP6_DONE, 46));
}

static void missing(void) {
    file_one_day();
    IS(cop6_missing(ledger, sizeof ledger, DAY), ANSWER(COP6_DONE, 2 << 16 | 46));
    IS(cop6_missing(ledger, sizeof ledger, DAY + 1), ANSWER(COP6_DONE, COP6_HALVES));
    IS(cop6_missing(ledger, sizeof ledger, DAY + 2), ANSWER(COP6_RANGE, 0));
    IS(cop6_missing(ledger, COP6_LEDGER_BYTES(0) - 1, DAY), ANSWER(COP6_LENGTH, 0));
    two_days();
    cop6_file(ledger, sizeof ledger, block, block_length);
    IS(cop6_missing(ledger, sizeof ledger, DAY), ANSWER(COP6_DONE, COP6_HALVES << 16));
}

/* The summary: all of its numbers, or none. */
static void summary(void) {
    file_one_day();
    memset(numbers, CLEAR, sizeof numbers);
    IS(cop6_summary(ledger, sizeof ledger, DAY, numbers, COP6_SUMMARY - 1), ANSWER(COP6_SHORT, COP6_SUMMARY));
    IS(cop6_summary(ledger, sizeof ledger, DAY, NULL, 0), ANSWER(COP6_SHORT, COP6_SUMMARY));
    IS(cop6_summary(ledger, sizeof ledger, DAY - 2, numbers, COP6_SUMMARY - 1), ANSWER(COP6_RANGE, 0));
    IS(clear(numbers, sizeof numbers), 1);
    IS(cop6_summary(ledger, sizeof ledger, DAY, numbers, NUMBERS), ANSWER(COP6_DONE, 0));
    IS(numbers[COP6_HELD], 1);
    IS(numbers[COP6_K], 2);
    IS(numbers[COP6_START], 471100);
    IS(numbers[COP6_ADVANCE], 130);
    IS(numbers[COP6_REVERSE], 0);
    IS(numbers[COP6_LEVEL2], 0);
    IS(clear(numbers + COP6_SUMMARY, sizeof numbers - COP6_SUMMARY * sizeof *numbers), 1);
    IS(cop6_summary(ledger, sizeof ledger, DAY + 1, numbers, COP6_SUMMARY), ANSWER(COP6_DONE, 0));
    for (int i = 0; i < COP6_SUMMARY; i++)
        IS(numbers[i], 0);
}

/* The flags of a day are held where all of it is. */
static void flags(void) {
    open_ledger();
    one_day("240229011000");
    RECORD(0)[RECORD_FLAGS] = COP6_FLAG_POWER;
    IS(cop6_file(ledger, sizeof ledger, block, block_length), ANSWER(COP6_DONE, 2));
    IS(cop6_flags(ledger, sizeof ledger, DAY), ANSWER(COP6_DONE, 0));
    two_days();
    IS(cop6_file(ledger, sizeof ledger, block, block_length), ANSWER(COP6_DONE, 46));
    IS(cop6_flags(ledger, sizeof ledger, DAY), ANSWER(COP6_DONE, 0xa0));
    IS(cop6_flags(ledger, sizeof ledger, DAY + 1), ANSWER(COP6_DONE, 0));
    IS(cop6_flags(ledger, sizeof ledger, DAY - 1), ANSWER(COP6_DONE, 0));
    IS(cop6_flags(ledger, sizeof ledger, DAY - 2), ANSWER(COP6_RANGE, 0));
    IS(cop6_flags(ledger, sizeof ledger, DAY + 2), ANSWER(COP6_RANGE, 0));
    IS(cop6_flags(ledger, COP6_LEDGER_BYTES(DAYS - 1), DAY), ANSWER(COP6_LENGTH, 0));
    IS(cop6_flags(NULL, 0, DAY), ANSWER(COP6_LENGTH, 0));
    ledger[ROOM + ROOM_FLAGS] = 0xa1;
    IS(cop6_flags(ledger, sizeof ledger, DAY + 2), ANSWER(COP6_DAMAGED, 0));
}

/* The half-hours: all of them, or none; with marks, in a ledger changed by hand. */
static void halves(void) {
    file_one_day();
    memset(numbers, CLEAR, sizeof numbers);
    IS(cop6_halves(ledger, sizeof ledger, DAY, numbers, COP6_HALVES - 1), ANSWER(COP6_SHORT, COP6_HALVES));
    IS(cop6_halves(ledger, sizeof ledger, DAY + 2, numbers, COP6_HALVES), ANSWER(COP6_RANGE, 0));
    IS(clear(numbers, sizeof numbers), 1);
    ledger[ROOM + ROOM_REVERSE] = 0x80;
    ledger[ROOM + ROOM_LEVEL2] = 0xc0;
    IS(cop6_halves(ledger, sizeof ledger, DAY, numbers, NUMBERS), ANSWER(COP6_DONE, 2));
    IS(COP6_HALF_VALUE(numbers[0]), 1150);
    IS(COP6_HALF_ADVANCE(numbers[0]), 50);
    IS(COP6_HALF_REVERSE(numbers[0]), 1);
    IS(COP6_HALF_LEVEL2(numbers[0]), 1);
    IS(COP6_HALF_VALUE(numbers[1]), 1230);
    IS(COP6_HALF_ADVANCE(numbers[1]), 80);
    IS(COP6_HALF_REVERSE(numbers[1]), 0);
    IS(COP6_HALF_LEVEL2(numbers[1]), 1);
    for (int j = 2; j < COP6_HALVES; j++)
        IS(numbers[j], 0);
    IS(clear(numbers + COP6_HALVES, 2 * sizeof *numbers), 1);
    ledger[ROOM + ROOM_REVERSE] = 0x20;
    IS(cop6_halves(ledger, sizeof ledger, DAY, numbers, NUMBERS), ANSWER(COP6_DAMAGED, 0));
}

/* ---- the longest */

/* The shortest block and the longest, read and filed whole; one of a day more is no block. */
static void longest(void) {
    enum { MOST = COP6_MOST_DAYS };
    static uint8_t too_long[COP6_BLOCK_BYTES(MOST + 1)], long_block[COP6_BLOCK_BYTES(MOST)], long_ledger[COP6_LEDGER_BYTES(MOST)];
    IS(sample_block(long_block, 0, DAY, 2, 1), COP6_BLOCK_BYTES(0));
    IS(memcmp(long_block, "\0\0\0\x6c\1", 5), 0);
    IS(cop6_read(long_block, COP6_BLOCK_BYTES(0)), ANSWER(COP6_DONE, 0));
    IS(sample_block(long_block, MOST, DAY, 2, 1), sizeof long_block);
    IS(memcmp(long_block, "\0\1\x82\x3d\1", 5), 0);
    IS(cop6_read(long_block, sizeof long_block), ANSWER(COP6_DONE, MOST));
    memcpy(too_long, long_block, sizeof long_block);
    sample_bytes(too_long, LENGTH_BYTES, sizeof too_long - LENGTH_BYTES);
    memcpy(too_long + COP6_BLOCK_BYTES(MOST), long_block + COP6_BLOCK_BYTES(MOST - 1), RECORD_BYTES);
    IS(cop6_read(too_long, sizeof too_long), ANSWER(COP6_NO_BLOCK, 0));
    IS(cop6_header(long_block, sizeof long_block, numbers, COP6_HEADER), ANSWER(COP6_DONE, MOST));
    IS(numbers[COP6_HEAD_DAYS], MOST);
    IS(cop6_open(long_ledger, sizeof long_ledger, METER, COP6_IDENTIFIER, DAY - MOST + 1, MOST), ANSWER(COP6_DONE, 0));
    IS(cop6_file(long_ledger, sizeof long_ledger, long_block, sizeof long_block), ANSWER(COP6_DONE, (MOST - 1) * COP6_HALVES + 2));
    IS(cop6_file(long_ledger, sizeof long_ledger, long_block, sizeof long_block), ANSWER(COP6_DONE, 0));
    IS(cop6_differs(long_ledger, sizeof long_ledger, long_block, sizeof long_block, numbers, COP6_DIFFERENCE), ANSWER(COP6_DONE, 0));
}

int main(void) {
    figures();
    days();
    dates();
    every_date();
    reading();
    listing();
    header_refused();
    header();
    opening();
    identifier();
    naming();
    filing();
    missing();
    summary();
    flags();
    halves();
    differs();
    differs_in_days();
    differs_refused();
    longest();
    tables_judged();
    tables_clash();
    tables_full();
    table_rates();
    table_weeks();
    table_weeks_inside();
    return wrong;
}
