/* The desk's library: blocks read from outstations, the ledger of one meter, the listing, tariff switching tables.
 *
 * Link libcop6.a: desk/build proves it and writes target/desk/libcop6.a, desk/install puts it, this header and a pkg-config file where they belong. Every
 * function in it is proved against its contract in crates/desk_c/src/lib.rt. It takes any bytes and any numbers, asks for no memory, keeps nothing between
 * calls, and may be called from several threads as long as no two of them are lent the same memory that one of them changes.
 *
 * What is lent: a pointer and how many elements it has. A pointer may be null where that number is 0. Two slices lent to one call must not overlap.
 *
 * What is answered: one number, answer * 2^32 + carried. Answer 0 is "done"; every other one is a refusal, which leaves all lent memory as it was.
 * docs/ANSWERS.md lists the answers, docs/BLOCK.md, docs/LEDGER.md and docs/TARIFF.md the bytes.
 *
 * A day is its number, 0 for 2000-01-01 to 36,524 for 2099-12-31. Half-hour j of a day, 0 to 47, begins j * 30 minutes after midnight, UTC.
 * Readings, half-hour values and advances are in units of 10 Wh.
 */
#ifndef COP6_H
#define COP6_H

#include <stddef.h>
#include <stdint.h>

#define COP6_VERSION "1.0.0"

#ifdef __cplusplus
extern "C" {
#endif

/* The parts of an answer. COP6_FIRST and COP6_COUNT take apart what cop6_window and cop6_missing carry. */
#define COP6_ANSWER(r) ((uint32_t)((r) >> 32))
#define COP6_CARRIED(r) ((uint32_t)(r))
#define COP6_FIRST(r) (COP6_CARRIED(r) >> 16)
#define COP6_COUNT(r) (COP6_CARRIED(r) & 0xffffu)

/* The answers that this library gives. */
enum {
    COP6_DONE = 0,          /* done */
    COP6_LENGTH = 4,        /* the ledger has another length than its days need */
    COP6_DAMAGED = 5,       /* the ledger has a field out of range, or room that should be zero and isn't */
    COP6_RANGE = 6,         /* an opening value out of range; a day outside the window; a table out of range, or a time or day asked of it */
    COP6_SHORT = 7,         /* the output is too short; carries how many elements are needed */
    COP6_NO_BLOCK = 8,      /* under COP6_BLOCK_BYTES(0) bytes, length or version wrong, not whole records, over COP6_MOST_DAYS of them */
    COP6_FIELD = 9,         /* a wrong character, an unreal date or time, low flag bits set; carries the offset of the first such field */
    COP6_INCONSISTENT = 10, /* the fields are right one by one and do not go together */
    COP6_OTHER_METER = 11,  /* another meter than the ledger's: the last nine characters of the identifiers differ */
    COP6_DIFFERS = 12,      /* a start, value or mark other than the one held, or other flags of a day that is complete in both */
    COP6_CLASH = 14         /* two entries of a table that cover the same day with one rank, or switch at the same minute */
};

#define COP6_IDENTIFIER 12                     /* bytes of an identifier: PPP, M, YY, XXXXXX */
#define COP6_PPP 3                             /* of these PPP, A-Z, a-z and 0-9, which the site may set; the others, from COP6_PPP on, are the meter's */
#define COP6_MOST_DAYS 451                     /* of a block, and of a ledger's window */
#define COP6_HALVES 48                         /* half-hours of a day */
#define COP6_RATES 8                           /* rate registers */
#define COP6_READING_ROUND 100000000           /* readings are below it: start and advances are summed modulo this */
#define COP6_VALUE_ROUND 10000                 /* half-hour values and advances are below it */
#define COP6_BLOCK_BYTES(days) (112 + 219 * (size_t)(days)) /* day record i begins at COP6_BLOCK_BYTES(i) */
#define COP6_LEDGER_BYTES(days) (16 + 114 * (size_t)(days)) /* what cop6_ledger_length answers, for an array of fixed length */
#define COP6_LISTING_BYTES(days) (30 + 32 * (size_t)(days)) /* also enough for the text of a refusal */
#define COP6_TABLE_BYTES 440                   /* of a tariff switching table */
#define COP6_WEEK_BYTES 812                    /* enough for the text of every table's week */

/* ---- blocks */

/* Reads a block. 0 carries its number of days; 8; 9 carries an offset; 10. */
uint64_t cop6_read(const uint8_t *block, size_t length);

/* Writes the listing of a block as text: a line for the block and one for each day, or REFUSED and the reader's answer. Returns the bytes written, with
 * no byte 0 behind them; 0 where `out` is too short, which then stays as it was. The text has COP6_LISTING_BYTES(days) bytes; out's other bytes stay. */
uint64_t cop6_listing(const uint8_t *block, size_t length, uint8_t *out, size_t room);

/* The header of a block, written as COP6_HEADER numbers in the block's own order. 0 carries its number of days; 8; 9 carries an offset; 10; 7 carries
 * COP6_HEADER, where `room` is less. Elements past these stay as they were. */
enum {
    COP6_HEAD_IDENTIFIER,  /* the identifier's characters, a number each */
    COP6_HEAD_TIME = COP6_HEAD_IDENTIFIER + COP6_IDENTIFIER, /* time of reading, in seconds from 2000-01-01 00:00:00 */
    COP6_HEAD_KWH,         /* kWh register */
    COP6_HEAD_CURRENT,     /* current demand, in hundredths of a kW, */
    COP6_HEAD_PREVIOUS,    /* previous demand, */
    COP6_HEAD_CUMULATIVE,  /* and cumulative demand */
    COP6_HEAD_RESET,       /* last reset: 0 for never, else its day's number plus one */
    COP6_HEAD_RESETS,      /* reset count */
    COP6_HEAD_RATES,       /* the rate registers, in kWh */
    COP6_HEAD_DAYS = COP6_HEAD_RATES + COP6_RATES, /* number of days */
    COP6_HEADER            /* how many numbers these are */
};
uint64_t cop6_header(const uint8_t *block, size_t length, uint64_t *out, size_t room);

/* ---- days */

/* The day number of a date, six digits YYMMDD as a number; COP6_NO_DAY where there is no such date. */
#define COP6_NO_DAY UINT32_C(4294967295)
uint32_t cop6_day(uint32_t yymmdd);

/* The date YYMMDD of a day number as a number, so 229 is 000229; 0 where there is no such day. */
uint32_t cop6_date(uint32_t day);

/* ---- the ledger: one slice of bytes, a file as it is. Every call but cop6_open judges all of it first: 4, then 5. */

/* The bytes that a ledger of so many days needs. */
uint64_t cop6_ledger_length(uint32_t days);

/* Opens a ledger for a meter, from day `first` on, for 1 to COP6_MOST_DAYS days, all by 2099: every day absent, whatever the bytes were. 6 for an
 * identifier, day or number of days out of range, then 4 where `length` is not cop6_ledger_length(days); carries 0. PPP is kept as it is given here, and
 * compared with no block's; where it is not known it may be 000. */
uint64_t cop6_open(uint8_t *ledger, size_t length, const uint8_t *identifier, size_t twelve, uint32_t first, uint32_t days);

/* Files a block of the ledger's meter, whatever its PPP: each day of the window takes what the block has of it, if that is more. 0 carries how many
 * half-hours became held. 4, 5; of the block 8, 9 with the offset, 10; 11; 12. */
uint64_t cop6_file(uint8_t *ledger, size_t length, const uint8_t *block, size_t block_length);

/* What filing a block would be refused with 12 for: the first day of the window, and the first part of that day, of which the ledger and the block have
 * something else. 0 carries 1 where there is one, and COP6_DIFFERENCE numbers are written; 0 where there is none, and these are 0. 4, 5, 8, 9, 10 and 11
 * as cop6_file; then 7 carries COP6_DIFFERENCE, where `room` is less. Elements past these stay as they were; the ledger is not changed. */
enum {
    COP6_DIFFERS_DAY,  /* the day's number */
    COP6_DIFFERS_PART, /* COP6_PART_START, COP6_PART_HALF + j for half-hour j, COP6_PART_FLAGS */
    COP6_DIFFERS_HELD, /* what the ledger has: the start reading; the half-hour, for COP6_HALF_VALUE, COP6_HALF_REVERSE and COP6_HALF_LEVEL2; the flags */
    COP6_DIFFERS_SENT, /* and what the block has */
    COP6_DIFFERENCE    /* how many numbers these are */
};
#define COP6_PART_START 0
#define COP6_PART_HALF 1
#define COP6_PART_FLAGS (COP6_PART_HALF + COP6_HALVES)
uint64_t cop6_differs(const uint8_t *ledger, size_t length, const uint8_t *block, size_t block_length, uint64_t *out, size_t room);

/* The identifier that the ledger was opened for, written as COP6_IDENTIFIER characters. 0 carries 0; 4; 5; 7 carries COP6_IDENTIFIER, where `room` is less. Bytes past these stay
 * as they were. */
uint64_t cop6_identifier(const uint8_t *ledger, size_t length, uint8_t *out, size_t room);

/* The window. 0 carries its first day, COP6_FIRST, and how many days it has, COP6_COUNT; 4; 5. */
uint64_t cop6_window(const uint8_t *ledger, size_t length);

/* What is missing of a day. 0 carries the first half-hour not held, COP6_FIRST, COP6_HALVES where none is missing, and how many are missing, COP6_COUNT;
 * 4; 5; 6. */
uint64_t cop6_missing(const uint8_t *ledger, size_t length, uint32_t day);

/* The summary of a day, written as COP6_SUMMARY numbers. 0 carries 0; 4; 5; 6; 7 carries COP6_SUMMARY, where `room` is less. Elements past these stay as
 * they were. */
enum {
    COP6_HELD,    /* 1 held, 0 absent; then the others are 0 */
    COP6_K,       /* how many half-hours are held, from the day's first on */
    COP6_START,   /* reading at the day's start */
    COP6_ADVANCE, /* summed advance of the half-hours held */
    COP6_REVERSE, /* how many of them are marked for reverse running */
    COP6_LEVEL2,  /* how many are marked for Level 2 access */
    COP6_SUMMARY  /* how many numbers these are */
};
uint64_t cop6_summary(const uint8_t *ledger, size_t length, uint32_t day, uint64_t *out, size_t room);

/* The daily flags of a day. 0 carries them, and 0 where fewer than COP6_HALVES half-hours are held: flags are held of a whole day only; 4; 5; 6. */
#define COP6_FLAG_POWER 0x80u /* power was lost */
#define COP6_FLAG_METER 0x40u /* the meter was changed */
#define COP6_FLAG_RESET 0x20u /* the maximum demand was reset */
uint64_t cop6_flags(const uint8_t *ledger, size_t length, uint32_t day);

/* The half-hours of a day, written as COP6_HALVES numbers, 0 for one that is not held. 0 carries how many are held, from the first on; 4; 5; 6; 7 carries
 * COP6_HALVES, where `room` is less. Elements past these stay as they were. The macros take one of the numbers apart. */
#define COP6_HALF_VALUE(half) ((uint32_t)((half) & 0xffffu))
#define COP6_HALF_ADVANCE(half) ((uint32_t)((half) >> 16 & 0xffffu))
#define COP6_HALF_REVERSE(half) ((int)((half) >> 32 & 1))
#define COP6_HALF_LEVEL2(half) ((int)((half) >> 33 & 1))
uint64_t cop6_halves(const uint8_t *ledger, size_t length, uint32_t day, uint64_t *out, size_t room);

/* ---- tariff switching tables: one slice of bytes, a file as it is. Every call judges all of it first: 6, which comes before every 14, then 14. */

/* Judges a table that an editor saved. 0 carries 0; 6; 14. */
uint64_t cop6_table_judge(const uint8_t *table, size_t length);

/* The rate at a time, in seconds from 2000-01-01 00:00:00. 0 carries it, 1 to COP6_RATES; 6, also for a time past 2099; 14. */
uint64_t cop6_table_rate(const uint8_t *table, size_t length, uint64_t time);

/* Writes seven days from a day on as text: a line for each day with its day type and the rate of each half-hour, and one for each day type used. 0 carries
 * the bytes written, with no byte 0 behind them; 6, also for a day past 2099-12-25; 14; 7 carries the bytes needed, COP6_WEEK_BYTES at most. out's other
 * bytes stay. */
uint64_t cop6_table_week(const uint8_t *table, size_t length, uint32_t day, uint8_t *out, size_t room);

#ifdef __cplusplus
}
#endif

#endif
