/* Writes a block for the trial of pages: page_blocks SHAPE DAYS YYMMDD K, read ten minutes after half-hour K of the day began. Shapes: `life` as sample.c
 * has it; `none`, no energy at all; `huge`, one half-hour of 99.99 kWh among small ones; `signs`, every flag and mark with and without the others. */
#include "cop6.h"
#include "layout.h"
#include "sample.h"

#include <stdio.h>
#include <stdlib.h>
#include <string.h>

enum { FIRST_READING = 471100 };

static uint32_t advance(const char *shape, uint32_t i, uint32_t j) {
    if (strcmp(shape, "none") == 0)
        return 0;
    return strcmp(shape, "huge") == 0 && i == 1 && j == 20 ? COP6_VALUE_ROUND - 1 : (i * 7 + j * 5) % 11 * 3;
}

/* Gives record i of a block its energy, from the reading at its start on; the reading at its end. */
static uint32_t put_energy(uint8_t *record, const char *shape, uint32_t i, uint32_t ended, uint32_t reading) {
    sample_digits(record + RECORD_START, START_DIGITS, reading);
    for (uint32_t j = 0; j < COP6_HALVES; j++) {
        reading += j < ended ? advance(shape, i, j) : 0;
        sample_digits(record + RECORD_VALUE(j), VALUE_DIGITS, reading % COP6_VALUE_ROUND);
    }
    return reading;
}

/* Flags by the day, marks by the half-hour, so that each stands alone and with the others. */
static void put_signs(uint8_t *record, const char *shape, uint32_t i, uint32_t ended) {
    int signs = strcmp(shape, "signs") == 0;
    record[RECORD_FLAGS] = (uint8_t)(signs ? (i + 4) % 8 * COP6_FLAG_RESET : 0);
    memset(record + RECORD_REVERSE, 0, 2 * MARK_BYTES);
    for (uint32_t j = 0; signs && j < ended; j++) {
        uint8_t bit = (uint8_t)(0x80 >> j % 8);
        record[RECORD_REVERSE + j / 8] |= (uint8_t)((i + j) % 5 == 0 ? bit : 0);
        record[RECORD_LEVEL2 + j / 8] |= (uint8_t)((i + j) % 7 == 0 ? bit : 0);
    }
}

int main(int count, char **args) {
    static uint8_t block[COP6_BLOCK_BYTES(COP6_MOST_DAYS)];
    if (count != 5)
        return 2;
    uint32_t days = (uint32_t)atoi(args[2]), day = cop6_day((uint32_t)atoi(args[3])), k = (uint32_t)atoi(args[4]), reading = FIRST_READING;
    if (days > COP6_MOST_DAYS || day == COP6_NO_DAY || k >= COP6_HALVES)
        return 2;
    size_t length = sample_block(block, days, day, k, 7);
    for (uint32_t i = days; strcmp(args[1], "life") != 0 && i-- > 0;) {
        uint8_t *record = block + COP6_BLOCK_BYTES(i);
        uint32_t ended = i == 0 ? k : COP6_HALVES;
        reading = put_energy(record, args[1], i, ended, reading);
        put_signs(record, args[1], i, ended);
    }
    return fwrite(block, 1, length, stdout) == length && fflush(stdout) == 0 ? 0 : 2;
}
