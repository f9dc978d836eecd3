/* The library by plain C: a program links this, plain.c, plain_desk.c and plain_tariff.c where the archive is not for its processor, as a build with sanitizers
 * for another one than x86-64. It proves nothing. */
#include "cop6.h"
#include "plain.h"

uint64_t cop6_read(const uint8_t *block, size_t length) { return plain_read(block, length); }
uint64_t cop6_listing(const uint8_t *block, size_t length, uint8_t *out, size_t room) { return plain_listing(block, length, out, room); }
uint64_t cop6_header(const uint8_t *block, size_t length, uint64_t *out, size_t room) { return plain_header(block, length, out, room); }
uint32_t cop6_day(uint32_t yymmdd) { return plain_day(yymmdd); }
uint32_t cop6_date(uint32_t day) { return plain_date(day); }
uint64_t cop6_ledger_length(uint32_t days) { return plain_ledger_length(days); }
uint64_t cop6_open(uint8_t *ledger, size_t length, const uint8_t *identifier, size_t twelve, uint32_t first, uint32_t days) {
    return plain_open(ledger, length, identifier, twelve, first, days);
}
uint64_t cop6_file(uint8_t *ledger, size_t length, const uint8_t *block, size_t block_length) { return plain_file(ledger, length, block, block_length); }
uint64_t cop6_differs(const uint8_t *ledger, size_t length, const uint8_t *block, size_t block_length, uint64_t *out, size_t room) {
    return plain_differs(ledger, length, block, block_length, out, room);
}
uint64_t cop6_identifier(const uint8_t *ledger, size_t length, uint8_t *out, size_t room) { return plain_identifier(ledger, length, out, room); }
uint64_t cop6_window(const uint8_t *ledger, size_t length) { return plain_window(ledger, length); }
uint64_t cop6_missing(const uint8_t *ledger, size_t length, uint32_t day) { return plain_missing(ledger, length, day); }
uint64_t cop6_summary(const uint8_t *ledger, size_t length, uint32_t day, uint64_t *out, size_t room) { return plain_summary(ledger, length, day, out, room); }
uint64_t cop6_flags(const uint8_t *ledger, size_t length, uint32_t day) { return plain_flags(ledger, length, day); }
uint64_t cop6_halves(const uint8_t *ledger, size_t length, uint32_t day, uint64_t *out, size_t room) { return plain_halves(ledger, length, day, out, room); }
uint64_t cop6_table_judge(const uint8_t *table, size_t length) { return plain_table_judge(table, length); }
uint64_t cop6_table_rate(const uint8_t *table, size_t length, uint64_t time) { return plain_table_rate(table, length, time); }
uint64_t cop6_table_week(const uint8_t *table, size_t length, uint32_t day, uint8_t *out, size_t room) {
    return plain_table_week(table, length, day, out, room);
}
