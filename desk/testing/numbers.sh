# shellcheck shell=bash
# Sourced by tests and tools, from the top folder: the numbers of the rules, as desk/cop6.h has them.

number() { sed -n "s/^#define COP6_$1 \([0-9]*\).*/\1/p" desk/cop6.h; } # NAME

most_days=$(number MOST_DAYS) halves=$(number HALVES) value_round=$(number VALUE_ROUND) table_bytes=$(number TABLE_BYTES)
read -r head_bytes record_bytes < <(sed -n 's/^#define COP6_BLOCK_BYTES(days) (\([0-9]*\) + \([0-9]*\) .*/\1 \2/p' desk/cop6.h)
: "${most_days:?}" "${halves:?}" "${value_round:?}" "${table_bytes:?}" "${head_bytes:?}" "${record_bytes:?}"

block_bytes() { echo $((head_bytes + record_bytes * $1)); } # DAYS

# The first day of the longest window that ends with the last day of all.
last_window() { date -u -d "2099-12-31 -$((most_days - 1)) days" +%y%m%d; }
