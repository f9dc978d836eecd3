/* What the plain C's calls on a tariff switching table and its outstation share: a table's slots, and the rate that it names at a time. */
#ifndef PLAIN_TARIFF_H
#define PLAIN_TARIFF_H

#include <stdbool.h>
#include <stddef.h>
#include <stdint.h>

/* docs/TARIFF.md: the bytes of a slot, and how many slots there are. */
enum { SLOT_ENTRY, SLOT_TYPE, SLOT_THIRD, SLOT_FOURTH, SLOT_FIFTH, SLOT, SLOTS = 88, TABLE = SLOT * SLOTS };

/* The rate of a table of TABLE bytes at a time by 2099, which for an accepted table is 1 to 8; 0 where no entry, or no switching time, names one. */
uint32_t plain_rate_in(const uint8_t *table, uint64_t time);

/* Whether some switching time of a table of TABLE bytes names a rate above this one. */
bool plain_names_above(const uint8_t *table, uint32_t rate);

#endif
