/* The loops of crates/timing and crates/timed, for the benchmark alone: `rt lib` in crates/timing_c and
   crates/timed_c proves each and writes its archive. desk/plain.h says what they do; of those with a
   table n counts the load, which comes first. */
#ifndef TIMING_H
#define TIMING_H

#include "cop6.h"

#include <stddef.h>
#include <stdint.h>

/* The store that they are lent, of class d: its days, which the longest block carries, and the words of a day's marks. */
#define TIMED_DAYS COP6_MOST_DAYS
#define TIMED_WORDS 3
/* Thousandths of a watt-hour in a pulse: 1 Wh. */
#define TIMED_PULSE 1000

uint64_t timed_counts(uint16_t *values, size_t v, uint32_t *starts, size_t p, uint64_t *marks, size_t m, uint32_t n);
uint64_t timed_clocks(uint16_t *values, size_t v, uint32_t *starts, size_t p, uint64_t *marks, size_t m, uint32_t n, uint32_t by);
uint64_t timed_outages(uint16_t *values, size_t v, uint32_t *starts, size_t p, uint64_t *marks, size_t m, uint32_t n, uint32_t by);
uint64_t timed_reads(uint16_t *values, size_t v, uint32_t *starts, size_t p, uint64_t *marks, size_t m, uint8_t *out, size_t length, uint32_t n, uint32_t to);
uint64_t timed_tariff_counts(uint16_t *values, size_t v, uint32_t *starts, size_t p, uint64_t *marks, size_t m, uint8_t *table, size_t t,
                             const uint8_t *offered, size_t o, uint32_t n);
uint64_t timed_tariff_clocks(uint16_t *values, size_t v, uint32_t *starts, size_t p, uint64_t *marks, size_t m, uint8_t *table, size_t t,
                             const uint8_t *offered, size_t o, uint32_t n, uint32_t by);
uint64_t timed_tariff_loads(uint16_t *values, size_t v, uint32_t *starts, size_t p, uint64_t *marks, size_t m, uint8_t *table, size_t t,
                            const uint8_t *offered, size_t o, uint32_t n);

#endif
