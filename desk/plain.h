/* Every call of the library in plain C, written from the rules and layouts alone: the comparison holds the two against each other, stand_in.c stands in for the
 * archive by it. The benchmark measures the library against its reader, filing and summary, and against the same loops of a recorder's events and reads, and of
 * an outstation's with a table, as crates/timing has. */
#ifndef PLAIN_H
#define PLAIN_H

#include <stddef.h>
#include <stdint.h>

/* As cop6.h says of the call of the same name. plain.c has the three that are timed, plain_tariff.c those on a table, plain_desk.c the others. */
uint64_t plain_read(const uint8_t *block, size_t length);
uint64_t plain_file(uint8_t *ledger, size_t length, const uint8_t *block, size_t block_length);
uint64_t plain_summary(const uint8_t *ledger, size_t length, uint32_t day, uint64_t *out, size_t room);
uint64_t plain_listing(const uint8_t *block, size_t length, uint8_t *out, size_t room);
uint64_t plain_header(const uint8_t *block, size_t length, uint64_t *out, size_t room);
uint32_t plain_day(uint32_t yymmdd);
uint32_t plain_date(uint32_t day);
uint64_t plain_ledger_length(uint32_t days);
uint64_t plain_open(uint8_t *ledger, size_t length, const uint8_t *name, size_t twelve, uint32_t first, uint32_t days);
uint64_t plain_differs(const uint8_t *ledger, size_t length, const uint8_t *block, size_t block_length, uint64_t *out, size_t room);
uint64_t plain_identifier(const uint8_t *ledger, size_t length, uint8_t *out, size_t room);
uint64_t plain_window(const uint8_t *ledger, size_t length);
uint64_t plain_missing(const uint8_t *ledger, size_t length, uint32_t day);
uint64_t plain_flags(const uint8_t *ledger, size_t length, uint32_t day);
uint64_t plain_halves(const uint8_t *ledger, size_t length, uint32_t day, uint64_t *out, size_t room);
uint64_t plain_table_judge(const uint8_t *table, size_t length);
uint64_t plain_table_rate(const uint8_t *table, size_t length, uint64_t time);
uint64_t plain_table_week(const uint8_t *table, size_t length, uint32_t day, uint8_t *out, size_t room);

/* Set-up in a store of class d, at 2000-01-01 00:00:00 with 1 Wh a pulse and all at zero; then n Counts of one pulse each, and the total is returned, in
 * thousandths of a watt-hour; n Clocks of so many seconds each, and the time; n events of outages, Off and On in turn, each outage so many seconds long, and
 * the time; a Clock to a second, n reads of all days, and the bytes of these. */
uint64_t plain_counts(uint16_t *values, size_t v, uint32_t *starts, size_t p, uint64_t *marks, size_t m, uint32_t n);
uint64_t plain_clocks(uint16_t *values, size_t v, uint32_t *starts, size_t p, uint64_t *marks, size_t m, uint32_t n, uint32_t by);
uint64_t plain_outages(uint16_t *values, size_t v, uint32_t *starts, size_t p, uint64_t *marks, size_t m, uint32_t n, uint32_t by);
uint64_t plain_reads(uint16_t *values, size_t v, uint32_t *starts, size_t p, uint64_t *marks, size_t m, uint8_t *out, size_t length, uint32_t n, uint32_t to);

/* The same set-up with no table loaded; `offered` loaded into `table`; then n Counts and the total, n Clocks and the time. Or n loads of it, and the active rate. */
uint64_t plain_tariff_counts(uint16_t *values, size_t v, uint32_t *starts, size_t p, uint64_t *marks, size_t m, uint8_t *table, size_t t,
                             const uint8_t *offered, size_t o, uint32_t n);
uint64_t plain_tariff_clocks(uint16_t *values, size_t v, uint32_t *starts, size_t p, uint64_t *marks, size_t m, uint8_t *table, size_t t,
                             const uint8_t *offered, size_t o, uint32_t n, uint32_t by);
uint64_t plain_tariff_loads(uint16_t *values, size_t v, uint32_t *starts, size_t p, uint64_t *marks, size_t m, uint8_t *table, size_t t,
                            const uint8_t *offered, size_t o, uint32_t n);

#endif
