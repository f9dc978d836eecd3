/* Blocks as an outstation would send them, and tariff switching tables as an editor would save them, made up: for the benchmark, and for the comparison with
 * plain C. */
#ifndef SAMPLE_H
#define SAMPLE_H

#include <stddef.h>
#include <stdint.h>

#define SAMPLE_METER "ABCX24000017"
enum { SAMPLE_ADVANCE = 200 }; /* of a half-hour, more or less */

/* The next of a run of numbers, which is the same for the same seed. */
uint32_t sample_next(uint64_t *seed);

/* Writes a number as so many decimal digits, or big-endian as so many bytes. */
void sample_digits(uint8_t *out, size_t n, uint64_t number);
void sample_bytes(uint8_t *out, size_t n, uint64_t number);

/* Writes a block of so many days, 0 to COP6_MOST_DAYS, read ten minutes after half-hour k of `day` began; returns its length, COP6_BLOCK_BYTES(days).
 * Blocks of the same life agree with each other. */
size_t sample_block(uint8_t *out, uint32_t days, uint32_t day, uint32_t k, uint32_t life);

/* The most entries of their kinds that a table may have. */
enum { SAMPLE_SWITCHINGS = 48, SAMPLE_EXCEPTIONS = 32, SAMPLE_WEEKDAYS = 7 };

/* Writes COP6_TABLE_BYTES of a table that is accepted, slots in no order: so many switching times, 1 at least, exceptions, and weekday entries, and a default. */
void sample_table(uint8_t *out, uint32_t switchings, uint32_t exceptions, uint32_t weekdays, uint64_t *seed);

#endif
