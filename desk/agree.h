/* What the parts of the comparison share: the calls, and holding what the library answers and leaves against the plain C's. agree.c defines it. */
#ifndef AGREE_H
#define AGREE_H

#include <stddef.h>
#include <stdint.h>

enum call {
    DAY,
    DATE,
    LEDGER_LENGTH,
    READ,
    LISTING,
    HEADER,
    OPEN,
    FILE_BLOCK,
    DIFFERS,
    IDENTIFIER,
    WINDOW,
    MISSING,
    SUMMARY,
    FLAGS,
    HALVES,
    TABLE_JUDGE,
    TABLE_RATE,
    TABLE_WEEK,
    CALLS
};

/* What an output is filled with before a call. */
enum { CLEAR = 0xee };

/* Whether something differed. */
extern int differ;

void same_answer(enum call call, uint64_t library, uint64_t plain);
void same_memory(enum call call, const void *library, const void *plain, size_t length);

/* A refusal leaves the output CLEAR. */
void kept(enum call call, int refused, const void *output, size_t length);

/* Bytes that come near to being right: a digit for a digit, a letter, a bit more or less. */
void damage(uint8_t *at, uint64_t *seed);

/* The calls on tables: right ones, those at the edges of what is right, and damaged ones. */
void compare_tables(uint64_t *seed);

#endif
