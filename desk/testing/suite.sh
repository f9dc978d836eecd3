# shellcheck shell=bash
# Sourced by desk/test: every command, message and exit status of one desk, whose words are in $desk, held against desk/expected/.

# What the desk wrote, to $room/out and $room/err, and its exit status, held to desk/expected/NAME.
compare() { # NAME STATUS
    { cat "$room/out" "$room/err"; echo "exit $2"; } >"$room/wrote"
    if [ -n "$write" ]; then cp "$room/wrote" "$here/desk/expected/$1"; fi
    checks=$((checks + 1))
    diff -u "$here/desk/expected/$1" "$room/wrote" >&2 || fail "$what: $1: not what desk/expected/$1 has"
}

# Runs the desk and compares.
expect() { # NAME WORD..
    local name=$1 status=0
    shift
    "${desk[@]}" "$@" >"$room/out" 2>"$room/err" || status=$?
    compare "$name" $status
}

usage_and_opening() {
    expect help --help
    expect help -h
    expect version --version
    expect usage
    expect usage_word draw m.ledger
    expect usage_open open m.ledger
    expect usage_version --version 2
    expect usage_summary summary
    expect usage_page page m.ledger m.table 240228 240229
    expect usage_week week m.table
    expect open_no_date open m.ledger $meter 230229 3
    expect open_date open m.ledger $meter 2024-02-28 3
    expect open_no_number open m.ledger $meter 240228 three
    expect open_identifier open m.ledger abcx24000017 240228 3
    expect open_identifier_short open m.ledger ABCX2400001 240228 $((most_days + 1))
    expect open_days open m.ledger $meter 240228 $((most_days + 1))
    expect open_no_days open m.ledger $meter 240228 0
    expect open_past_2099 open m.ledger $meter 991231 2
    expect open_new open m.new $meter 240228 3
    expect open_no_folder open no/m.ledger $meter 240228 3
    holds 'a refused opening leaves no file' [ -z "$(ls)" ]
    umask 027
    expect open open m.ledger $meter 240228 3
    umask 022
    holds 'a ledger is opened with the mode that the user asks for' [ "$(stat -c %a m.ledger)" = 640 ]
    expect open_again open m.ledger $meter 240228 3
    ln -s nowhere dangling
    expect open_dangling open dangling $meter 240228 3
    rm dangling
    expect fresh_summary summary m.ledger
    expect fresh_missing missing m.ledger
    expect fresh_show show m.ledger
    expect fresh_values values m.ledger
}

filing() {
    cp m.ledger n.ledger
    chmod 604 m.ledger
    expect file file m.ledger $b/at_0110 $b/at_0205
    expect file_other_order file n.ledger $b/at_0205 $b/at_0110
    holds 'either order gives the same bytes' cmp m.ledger n.ledger
    holds 'the mode is kept' [ "$(stat -c %a m.ledger)" = 604 ]
    "${desk[@]}" open p.ledger 000${meter:3} 240228 3
    expect file_other_ppp file p.ledger $b/other_ppp $b/at_0110
    holds 'a ledger keeps the PPP that it was opened with' [ "$(head -c 12 p.ledger)" = 000${meter:3} ]
    holds 'but for PPP the bytes are the same' cmp -i 3 m.ledger p.ledger
    expect list_other_ppp list $b/other_ppp
    rm p.ledger
    if [ "$(id -u)" = 0 ]; then
        "${desk[@]}" open owned.ledger $meter 240228 3
        chown 1:2 owned.ledger
        expect file_owned file owned.ledger $b/at_0110
        holds 'owner and group are kept' [ "$(stat -c %u:%g:%a owned.ledger)" = 1:2:644 ]
        rm owned.ledger
    fi
    holds 'nothing is left beside the ledgers' [ "$(ls | tr '\n' ' ')" = 'm.ledger n.ledger ' ]
    expect part_summary summary m.ledger
    expect part_missing missing m.ledger
    expect part_show show m.ledger 240229
    expect part_values values m.ledger

    for refusal in differs differs_marks differs_both differs_start other_meter other_day wrong_value no_such_date cut too_long empty; do
        expect "file_$refusal" file m.ledger $b/$refusal
    done
    expect file_no_file file m.ledger $b/no_file
    expect file_folder file m.ledger .
    holds 'refused blocks change nothing' cmp m.ledger n.ledger
    expect file_some file m.ledger $b/differs $b/no_file $b/three_days
    expect file_differs_flags file m.ledger $b/differs_flags
}

itself() {
    cp m.ledger i.ledger
    ln i.ledger i.link
    ln -s i.ledger i.symbolic
    expect itself file i.ledger i.ledger $b/three_days i.link i.symbolic
    expect itself_by_link file i.symbolic i.ledger
    expect itself_differ differ i.ledger i.symbolic
    local status=0
    "${desk[@]}" file i.ledger - <i.ledger >"$room/out" 2>"$room/err" || status=$?
    compare itself_input $status
    holds 'a ledger is no block of its own' cmp m.ledger i.ledger
    rm i.ledger i.link i.symbolic
}

# What a block brings, and why it brings no more.
bringing() {
    "${desk[@]}" open flat.ledger $meter 240228 3
    expect bring_no_days file flat.ledger $b/no_days
    expect bring_outside file flat.ledger $b/flat_outside
    expect bring_later file flat.ledger $b/flat_later
    expect bring_fresh file flat.ledger $b/flat_fresh
    expect bring_some file flat.ledger $b/flat_five
    expect bring_again file flat.ledger $b/flat_five $b/flat_two
    expect bring_fresh_again file flat.ledger $b/flat_fresh
    expect bring_flags show flat.ledger
    "${desk[@]}" open one.ledger $meter 240229 1
    expect bring_ending file one.ledger $b/at_0015 $b/at_0035
    expect bring_fresh_held file one.ledger $b/at_0015
    expect bring_one_missing missing one.ledger
    expect bring_outside_all file one.ledger $b/flat_outside $b/flat_two $b/no_file $b/differs_start
    "${desk[@]}" open small.ledger $meter 240229 1
    "${desk[@]}" file small.ledger - <$b/small_advances >/dev/null
    expect show_small show small.ledger
    rm flat.ledger one.ledger small.ledger
}

asking() {
    expect summary summary m.ledger
    expect summary_day summary m.ledger 240229
    expect summary_days summary m.ledger 240228 240229
    expect summary_backwards summary m.ledger 240229 240228
    expect summary_no_date summary m.ledger 240230
    expect summary_no_day summary m.ledger 240302
    expect summary_before summary m.ledger 240227 240229
    for command in summary missing show values; do
        expect "${command}_after" $command m.ledger 240229 240302
    done
    expect missing missing m.ledger
    expect missing_day missing m.ledger 240228
    expect show show m.ledger
    expect values values m.ledger 240229 240301
    "${desk[@]}" page m.ledger >"$room/out"
    holds 'a page is written' [ "$(head -n 1 "$room/out") $(tail -n 1 "$room/out")" = '<!DOCTYPE html> </html>' ]
    expect differ_nothing differ m.ledger $b/three_days
    for difference in differs differs_flags other_meter wrong_value no_file; do
        expect "differ_$difference" differ m.ledger $b/$difference
    done
    expect differ_no_ledger differ no.ledger $b/differs

    expect list list $b/at_0110
    expect list_three list $b/three_days
    expect list_refused list $b/wrong_value
    "${desk[@]}" list - <$b/at_0110 >"$room/out"
    holds 'the listing program writes the same' cmp "$room/out" "$here/crates/listing/stdout"
    expect block block $b/at_0110
    expect block_registers block $b/registers
    expect block_no_days block $b/no_days
    expect block_refused block $b/wrong_value
}

# Seven days of a tariff switching table, and what is refused of it.
weeks() {
    holds 'the sample table is the drawn one' cmp $b/table "$here/samples/tariff.table"
    holds 'the sample that clashes is the drawn one with two defaults' cmp $b/table_clash "$here/samples/tariff-clash.table"
    expect week week $b/table 240226
    holds 'the week is as docs/TARIFF.md draws it' diff "$room/out" <(sed -n '/^## A week drawn/,$s/^    //p' "$here/docs/TARIFF.md")
    expect week week $b/table_shuffled 240226
    expect week_exceptions week $b/table 240501
    expect week_inside week $b/table_inside 240226
    expect week_full week $b/table_full 240226
    expect week_last week $b/table 991225
    "${desk[@]}" week - 240226 <$b/table >"$room/out"
    holds 'a table comes from standard input' diff "$room/out" <(sed '$d' "$here/desk/expected/week")
    expect week_past week $b/table 991226
    expect week_clash_past week $b/table_clash 991226
    for refusal in clash no_default wrong_rate no_midnight cut longer; do
        expect "week_$refusal" week $b/table_$refusal 240226
    done
    expect week_empty week $b/empty 240226
    expect week_block week $b/too_long 240226
    expect week_no_file week no.table 240226
    expect week_folder week . 240226
    expect week_date week $b/table 2024-02-26
    expect week_no_date week $b/table 230229
}

# A page with a table: it is judged before the first line is written.
pages_of_tables() {
    local week
    for week in table "table_full 240101"; do
        # shellcheck disable=SC2086
        "${desk[@]}" page m.ledger $b/$week >"$room/out"
        holds "a page with $week is written" [ "$(head -n 1 "$room/out") $(tail -n 1 "$room/out")" = '<!DOCTYPE html> </html>' ]
    done
    expect page_table_date page m.ledger $b/table 240230
    expect page_table_past page m.ledger $b/table 991226
    expect page_table_clash page m.ledger $b/table_clash
    expect page_no_table page m.ledger no.table
    expect page_no_ledger page no.ledger $b/table_clash
    "${desk[@]}" open late.ledger $meter 991228 3
    expect page_table_late page late.ledger $b/table
    rm late.ledger
}

damaged_ledgers() {
    head -c -1 n.ledger >short.ledger
    cp n.ledger damaged.ledger
    hex ff | dd of=damaged.ledger bs=1 seek=$(($(wc -c <n.ledger) / 2)) conv=notrunc status=none
    : >empty.ledger
    cp damaged.ledger as_it_was
    for ledger in short damaged empty; do
        expect "$ledger" summary $ledger.ledger
        expect "file_in_$ledger" file $ledger.ledger $b/three_days $b/at_0110
    done
    expect differ_in_damaged differ damaged.ledger $b/three_days
    expect page_damaged page damaged.ledger
    holds 'a damaged ledger stays as it was' cmp damaged.ledger as_it_was
    expect no_ledger summary no.ledger
    expect no_ledger_to_file_in file no.ledger $b/at_0110
    expect file_in_folder file . $b/at_0110
    expect file_in_device file /dev/null $b/at_0110
    rm short.ledger damaged.ledger empty.ledger as_it_was
}

# What is left of an ended desk, and what stands in its way.
leftovers() {
    cp n.ledger l.ledger
    ln l.ledger l.ledger.new
    expect leftover_link file l.ledger $b/three_days
    holds 'a leftover that is the ledger itself is not written into' cmp l.ledger m.ledger
    echo cut >l.ledger.new
    expect leftover_nothing_new file l.ledger $b/three_days
    cp n.ledger as_it_was
    ln n.ledger k.ledger.new
    "${desk[@]}" open k.ledger $meter 240228 3
    holds 'a leftover that is another ledger is not written into' cmp n.ledger as_it_was
    rm as_it_was
    holds 'a leftover is taken over' [ "$(ls | tr '\n' ' ')" = 'k.ledger l.ledger m.ledger n.ledger ' ]
    mv l.ledger l.ledger.new
    expect leftover_named file l.ledger.new $b/three_days
    rm l.ledger.new
    cp n.ledger l.ledger
    mkdir l.ledger.new
    expect leftover_folder file l.ledger $b/three_days
    holds 'the ledger stays as it was' cmp l.ledger n.ledger
    rm -r k.ledger l.ledger l.ledger.new
}

# Standard output that is full or closed, standard error that is closed: no file of the ledger's may stand in for them.
standard() {
    local status=0
    : >"$room/out"
    "${desk[@]}" summary m.ledger >/dev/full 2>"$room/err" || status=$?
    compare full $status
    status=0
    "${desk[@]}" summary m.ledger >&- 2>"$room/err" || status=$?
    compare closed $status
    if [ "${desk[0]}" = valgrind ]; then
        skip 'a closed standard error under valgrind, which needs one itself'
        return
    fi
    cp n.ledger c.ledger
    status=0
    "${desk[@]}" file c.ledger $b/differs $b/at_0110 >"$room/out" 2>&- || status=$?
    : >"$room/err"
    compare closed_error $status
    holds 'no message is written into the ledger' cmp c.ledger n.ledger
    rm c.ledger
}

# The longest window that a ledger may have, up to the last day of all.
longest() {
    expect open_longest open longest.ledger $meter "$(last_window)" "$most_days"
    holds 'a ledger of 451 days has 51,430 bytes' [ "$(wc -c <longest.ledger)" = 51430 ]
    expect longest_missing missing longest.ledger
    rm longest.ledger
}

# All of it; or one part, of which the second begins with the ledgers that the first left, in $kept.
suite() { # WHAT [PART]
    what=$1
    local b=../blocks part=${2:-both} refusal difference command ledger
    rm -rf "$room/trial"
    mkdir "$room/trial"
    cd "$room/trial"
    umask 022
    if [ "$part" != second ]; then
        usage_and_opening
        filing
        itself
        asking
        cp m.ledger n.ledger "$room"
    else
        cp "$kept/m.ledger" "$kept/n.ledger" .
    fi
    if [ "$part" != first ]; then
        bringing
        weeks
        pages_of_tables
        damaged_ledgers
        leftovers
        standard
        longest
    fi
    holds 'nothing is left beside the ledgers' [ "$(ls | tr '\n' ' ')" = 'm.ledger n.ledger ' ]
    cd "$here"
}
