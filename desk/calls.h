/* What the hand-reckoned cases of the library's calls share: the blocks, a ledger, and saying where something is wrong. calls.c defines it. */
#ifndef CALLS_H
#define CALLS_H

#include "cop6.h"
#include "layout.h"

/* Says so where a number is not what it should be; main's exit status is 1 then. */
#define IS(x, y) is(__FILE__, __LINE__, #x, (unsigned long long)(x), (unsigned long long)(y))
void is(const char *file, int line, const char *what, unsigned long long x, unsigned long long should);

#define ANSWER(answer, carried) ((uint64_t)(answer) << 32 | (carried))

/* The meter, the day that the blocks are of, 240229, and a ledger of three days, of which that is the middle one, with its room's place. */
#define METER ((const uint8_t *)"ABCX24000017")
enum { DAY = 8825, DAYS = 3, LEDGER = COP6_LEDGER_BYTES(DAYS), ROOM = COP6_LEDGER_BYTES(1), NUMBERS = COP6_HALVES + 2, CLEAR = 0xee };

/* What is lent: a ledger, a block, and numbers to write. */
extern uint8_t ledger[LEDGER], ledger_before[LEDGER], block[COP6_BLOCK_BYTES(2)];
extern uint64_t numbers[NUMBERS];
extern size_t block_length;

/* Every byte is as it was made before a call that was to leave it. */
int clear(const void *memory, size_t length);

/* A frame and header of so many days, all fields 0 but the identifier, the time and the days; returns the block's length. */
size_t header_of(int days, const char *time);

/* Record i of the block. */
#define RECORD(i) (block + COP6_BLOCK_BYTES(i))

/* Writes it: the date with the start reading, the first value and the second, which the others repeat; no flags and no marks. */
void record_of(size_t i, const char *date_and_start, const char *value, const char *others);

/* A block of one day, 240229, read at the time given: start 00471100, values 1150, 1230 and then 1230. */
void one_day(const char *time);

/* A block of two days, read ten minutes after 240229 has ended: that day whole, with flags 0xa0, and of 240301 the start alone. */
void two_days(void);

void open_ledger(void);

/* A ledger that holds two half-hours of 240229, and the block that they came in. */
void file_one_day(void);

/* The cases of cop6_day and cop6_date. */
void days(void);
void dates(void);
void every_date(void);

/* The cases of cop6_differs. */
void differs(void);
void differs_in_days(void);
void differs_refused(void);

/* The cases of cop6_table_judge, cop6_table_rate and cop6_table_week. */
void tables_judged(void);
void tables_clash(void);
void tables_full(void);
void table_rates(void);
void table_weeks(void);
void table_weeks_inside(void);

#endif
