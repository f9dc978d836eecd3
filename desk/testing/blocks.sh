# shellcheck shell=bash
# Sourced by desk/test: makes blocks, in $blocks. `record` and `block` write the bytes of docs/BLOCK.md.

hex() {
    local h=$1
    while [ -n "$h" ]; do
        # shellcheck disable=SC2059
        printf "\\x${h:0:2}"
        h=${h:2}
    done
}

# One day record: the values given are the first ones, and the last of them is repeated to the day's end.
record() { # DATE START FLAGS REVERSE LEVEL2 VALUE..
    local j last
    printf '%s%s' "$1" "$2"
    hex "$3"
    local reverse=$4 level2=$5
    shift 5
    for ((j = 0; j < halves; j++)); do
        if [ $# -gt 0 ]; then
            last=$1
            shift
        fi
        printf '%s' "$last"
    done
    hex "$reverse"
    hex "$level2"
}

# A block of the records on standard input, with nothing in its registers unless their digits are given: all of the header between the time and the days.
block() { # IDENTIFIER TIME DAYS [REGISTERS]
    local days
    days=$(printf '%03d' "$3")
    hex "$(printf '%08x01' $(($(block_bytes "$3") - 4)))"
    printf '%s%s' "$1" "$2"
    if [ $# -gt 3 ]; then printf '%s' "$4"; else printf '%0*d' $((head_bytes - 5 - ${#1} - ${#2} - ${#days})) 0; fi
    printf '%s' "$days"
    cat
}

# Half-hours that rise unevenly.
values() { # BEFORE STEP FROM TO
    local v=$1 j
    for ((j = $3; j < $4; j++)); do
        v=$(((v + $2 * (1 + (j * 5 + 3) % 11)) % value_round))
        printf '%04d ' $v
    done
}

meter=ABCX24000017 none=000000000000

one_day() { # TIME START FLAGS REVERSE LEVEL2 VALUE..
    local time=$1
    shift
    record "${time:0:6}" "$@" | block $meter "$time" 1
}

# Blocks of 240229, most of which something is wrong with.
small_blocks() {
    cp crates/listing/stdin "$blocks/at_0110"
    one_day 240229020500 00471100 00 $none $none 1150 1230 1310 1400 >"$blocks/at_0205"
    one_day 240229003500 00471100 00 $none $none 1150 >"$blocks/at_0035"
    one_day 240229001500 00471100 00 $none $none 1100 >"$blocks/at_0015"
    one_day 240229011000 00471100 00 $none $none 1150 1231 >"$blocks/differs"
    one_day 240229011000 00471100 00 c00000000000 800000000000 1150 1230 >"$blocks/differs_marks"
    one_day 240229011000 00471100 00 400000000000 400000000000 1150 1231 >"$blocks/differs_both"
    one_day 240229011000 00471101 00 $none $none 1150 1230 >"$blocks/differs_start"
    one_day 240229011000 00471100 00 $none $none 1150 123x >"$blocks/wrong_value"
    record 240229 00471100 00 $none $none 1150 1230 | block ABCX24000018 240229011000 1 >"$blocks/other_meter"
    record 240229 00471100 00 $none $none 1150 1230 1310 1400 | block xY9${meter:3} 240229020500 1 >"$blocks/other_ppp"
    record 240229 00471100 00 $none $none 1150 1230 | block $meter 240228011000 1 >"$blocks/other_day"
    record 230229 00471100 00 $none $none 1150 1230 | block $meter 240229011000 1 >"$blocks/no_such_date"
    block $meter 240229011000 0 </dev/null >"$blocks/no_days"
    head -c -1 "$blocks/at_0110" >"$blocks/cut"
    head -c $((2 * $(block_bytes "$most_days"))) /dev/zero >"$blocks/too_long"
    : >"$blocks/empty"
}

# Three days that join: the middle one lost power and ran in reverse for a while, each was read at Level 2; and the same with other flags of that day.
three_days() { # FLAGS
    # shellcheck disable=SC2046
    record 240301 00475888 00 $none 000001000000 $(values 5888 9 0 24)
    # shellcheck disable=SC2046
    record 240229 00471100 "$1" 0000f0000000 000030000001 1150 1230 1310 1400 $(values 1400 17 4 "$halves")
    # shellcheck disable=SC2046
    record 240228 00466492 00 $none 800000000000 $(values 6492 16 0 "$halves")
}

# Days of another meter's life, in which nothing is drawn: they join whatever days they are.
flat() { # TIME DATE..
    local time=$1 date
    shift
    for date in "$@"; do
        record "$date" 00001234 e0 $none $none 1234
    done | block $meter "$time" $#
}

large_blocks() {
    three_days 80 | block $meter 240301121500 3 >"$blocks/three_days"
    three_days 60 | block $meter 240301121500 3 >"$blocks/differs_flags"
    local registers=00475800123400090512345624020107 rates=000001000022000333004444055555666666077777008888
    three_days 80 | block $meter 240301121500 3 $registers$rates >"$blocks/registers"
    one_day 240229020500 00471100 00 $none $none 1101 1103 1103 1106 >"$blocks/small_advances"
    flat 240303001000 240303 240302 240301 240229 240228 >"$blocks/flat_five"
    flat 240302113000 240302 240301 >"$blocks/flat_two"
    flat 240305113000 240305 240304 >"$blocks/flat_later"
    flat 240301001000 240301 >"$blocks/flat_fresh"
    flat 240302235959 240302 >"$blocks/flat_outside"
}

# Blocks of four days, each read in the morning and late, for desks that file them at once or one after the other.
many_blocks() {
    local day
    for day in 1 2 3 4; do
        # shellcheck disable=SC2046
        one_day 24040${day}113000 00001234 00 $none $none $(values 1234 3 0 23) >"$blocks/day_$((2 * day - 1))"
        # shellcheck disable=SC2046
        one_day 24040${day}235959 00001234 00 $none $none $(values 1234 3 0 $((halves - 1))) >"$blocks/day_$((2 * day))"
    done
}

blocks=$room/blocks
mkdir "$blocks"
small_blocks
large_blocks
many_blocks
