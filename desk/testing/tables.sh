# shellcheck shell=bash
# Sourced by desk/test: makes tariff switching tables, in $blocks. A slot is the ten hexadecimal digits of its bytes (docs/TARIFF.md).

table() { # SLOT..: these, and unused ones behind them
    hex "$(printf '%s' "$@")"
    head -c $((table_bytes - 5 * $#)) /dev/zero
}

# The week that docs/TARIFF.md draws: its six switching times, default, weekdays, and two exceptions.
switching=(0101000001 0101070002 0101171e01 0102000003 0103000004 01030c0001)
covering=(0401000000 0302060700 0203640c19 0202180506)

small_tables() {
    table "${switching[@]}" "${covering[@]}" >"$blocks/table"
    table "${covering[3]}" 0000000000 "${covering[1]}" "${switching[5]}" "${covering[2]}" "${switching[2]}" "${switching[0]}" 0000000000 "${switching[4]}" \
        "${covering[0]}" "${switching[3]}" "${switching[1]}" >"$blocks/table_shuffled"
    table "${switching[@]}" "${covering[@]}" 0402000000 >"$blocks/table_clash"
    table "${switching[@]}" "${covering[@]:1}" >"$blocks/table_no_default"
    table "${switching[@]}" 0401000000 0104170009 >"$blocks/table_wrong_rate"
    table "${switching[@]}" 0404000000 >"$blocks/table_no_midnight"
    # inside a half-hour the rate changes, changes and comes back, is set to what it was
    table 0101000001 0101000502 01010a1e02 01010a2303 01010a3102 0101140102 0401000000 >"$blocks/table_inside"
    head -c -1 "$blocks/table" >"$blocks/table_cut"
    { cat "$blocks/table"; hex 00; } >"$blocks/table_longer"
}

# As many entries as a table may have: each of 8 day types has 6 switching times, each weekday an entry, 4 days of 8 months an exception.
full_table() {
    local type hour month day slots=()
    for type in 1 2 3 4 5 6 7 8; do
        for hour in 0 4 8 12 16 20; do
            slots+=("$(printf '01%02x%02x%02x%02x' $type $hour $((hour * type % 60)) $(((type + hour) % 8 + 1)))")
        done
    done
    for day in 1 2 3 4 5 6 7; do
        slots+=("$(printf '03%02x%02x%02x00' $day $day $day)")
    done
    for month in 1 2 3 4 5 6 7 8; do
        for day in 1 2 3 29; do
            slots+=("$(printf '02%02x%02x%02x%02x' $month $((day == 2 ? 24 : 100)) $month $day)")
        done
    done
    table "${slots[@]}" 0408000000 >"$blocks/table_full"
}

small_tables
full_table
