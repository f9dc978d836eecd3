# shellcheck shell=bash
# Sourced by desk/test: many desks at once on one ledger, and desks that are killed while they file. Nothing that was reported may be lost, the ledger is
# whole at every moment, and at most LEDGER.new is left beside it.

# Sleeps so many microseconds, without a process of its own.
nap() {
    local seconds
    printf -v seconds '0.%06d' "$1"
    read -rt "$seconds" <>"$room/never" || true
}

clean() { [ "$(ls | tr '\n' ' ')" = "$1 " ]; }

# The ledgers that filing day_1 to day_8 one after the other leaves: serial_0 to serial_8.
serial_ledgers() {
    local n
    "${desk[@]}" open "$room/serial_0" $meter 240401 4
    for n in {1..8}; do
        cp "$room/serial_$((n - 1))" "$room/serial_$n"
        "${desk[@]}" file "$room/serial_$n" "$blocks/day_$n" >/dev/null
    done
}

at_once() { # ROUNDS
    local round n pids
    for ((round = 0; round < $1; round++)); do
        cp "$room/serial_0" m
        pids=()
        for n in {1..8}; do
            "${desk[@]}" file m m "$blocks/day_$n" >"$room/out_$n" 2>"$room/err_$n" &
            pids+=($!)
        done
        wait "${pids[@]}" || true
        cmp -s m "$room/serial_8" || fail "$what: eight desks at once left another ledger than one after the other: round $round"
        for n in {1..8}; do
            if ! grep -q '^1 block filed' "$room/out_$n" || ! grep -q 'it is the ledger itself' "$room/err_$n"; then
                fail "$what: at once: day_$n was not filed, or the ledger: round $round"
            fi
        done
        clean m || fail "$what: at once: something is left: $(ls): round $round"
        checks=$((checks + 1))
    done
}

opens_at_once() { # ROUNDS
    local round n opened pids status
    for ((round = 0; round < $1; round++)); do
        rm -f m
        opened=0 pids=()
        for n in {1..8}; do
            "${desk[@]}" open m $meter 240401 4 2>"$room/err_$n" &
            pids+=($!)
        done
        for n in {1..8}; do
            status=0
            wait "${pids[n - 1]}" || status=$?
            if [ $status = 0 ]; then opened=$((opened + 1)); elif [ $status != 2 ] || ! grep -q ': m: File exists$' "$room/err_$n"; then
                fail "$what: an opening among others ended with $status: $(cat "$room/err_$n")"
            fi
        done
        [ $opened = 1 ] || fail "$what: $opened of eight openings of one name were done: round $round"
        if ! cmp -s m "$room/serial_0" || ! clean m; then fail "$what: openings at once left: $(ls): round $round"; fi
        checks=$((checks + 1))
    done
}

# A shell has what it starts in the background ignore SIGINT, and hands on what it ignores itself: this undoes it where env can.
minding=(env)
if env --default-signal true 2>/dev/null; then minding=(env --default-signal); fi

# How long one filing takes, in microseconds, to spread the kills over it and a little past it.
measure() {
    local n begun=${EPOCHREALTIME/[.,]/}
    cp "$room/serial_0" m
    for n in {1..8}; do
        "${minding[@]}" "${desk[@]}" file m "$blocks/day_$n" >/dev/null &
        wait $!
    done
    long=$(((${EPOCHREALTIME/[.,]/} - begun) / 8 * 5 / 4))
}

# Starts a desk and sends it a signal at a random moment; its exit status is then in $status, what it said in $room/out.
strike() { # SIGNAL WORD..
    local signal=$1 pid
    shift
    status=0
    : >"$room/out"
    "${minding[@]}" "${desk[@]}" "$@" >"$room/out" 2>/dev/null &
    pid=$!
    nap $((RANDOM * long / 32768))
    kill "-$signal" $pid 2>/dev/null || true
    { wait $pid || status=$?; } 2>/dev/null
    if [ $status -gt 128 ]; then struck=$((struck + 1)); fi
    if [ -e m.new ]; then left=$((left + 1)); fi
}

# Desks that file one block after the other, each struck: the ledger is the one before or the one after it, and after it where that was reported.
kill_filing() { # SIGNAL ROUNDS
    local round at=0 lost=0
    struck=0 left=0
    rm -f m.new
    cp "$room/serial_0" m
    for ((round = 0; round < $2; round++)); do
        strike "$1" file m "$blocks/day_$((at + 1))"
        if cmp -s m "$room/serial_$((at + 1))"; then
            at=$(((at + 1) % 8))
            [ $at != 0 ] || cp "$room/serial_0" m
        elif ! cmp -s m "$room/serial_$at"; then
            lost=$((lost + 1))
            fail "$what: a desk ended by $1 left a torn ledger: round $round"
        elif [ -s "$room/out" ]; then
            lost=$((lost + 1))
            fail "$what: a desk ended by $1 lost what it reported: round $round"
        fi
        [ -z "$(ls | grep -vxF -e m -e m.new)" ] || fail "$what: a desk ended by $1 left: $(ls): round $round"
        [ "$1" = KILL ] || [ ! -e m.new ] || fail "$what: a desk ended by $1 left its new file: round $round"
        checks=$((checks + 1))
    done
    "${desk[@]}" summary m >/dev/null || fail "$what: the ledger after $1 is refused"
    "${desk[@]}" file m "$blocks"/day_? >/dev/null
    if ! cmp -s m "$room/serial_8" || ! clean m; then fail "$what: the desk after $1 did not take over what was left: $(ls)"; fi
    echo "desk: $what: $2 filings sent $1 at random moments: $struck ended by it, $left left a new file, $lost lost anything"
}

kill_opening() { # SIGNAL ROUNDS
    local round
    struck=0 left=0
    for ((round = 0; round < $2; round++)); do
        rm -f m
        strike "$1" open m $meter 240401 4
        [ ! -e m ] || cmp -s m "$room/serial_0" || fail "$what: an opening ended by $1 left a torn ledger: round $round"
        [ "$1" = KILL ] || [ ! -e m.new ] || fail "$what: an opening ended by $1 left its new file: round $round"
        [ -e m ] || "${desk[@]}" open m $meter 240401 4 || fail "$what: an opening ended by $1 hinders the next: round $round"
        "${desk[@]}" file m "$blocks/day_1" >/dev/null
        if ! cmp -s m "$room/serial_1" || ! clean m; then fail "$what: an opening ended by $1 hinders filing: round $round"; fi
        checks=$((checks + 1))
    done
    rm -f m m.new
    echo "desk: $what: $2 openings sent $1 at random moments: $struck ended by it, $left left a new file"
}

# A block that comes slowly, by a pipe, has no other desk wait.
slow_block() {
    local slow
    cp "$room/serial_0" m
    mkfifo pipe
    "${desk[@]}" file m pipe >"$room/out" &
    slow=$!
    exec 9>pipe
    head -c 200 "$blocks/day_2" >&9
    holds 'a slow block holds up no other desk' timeout 30 "${desk[@]}" file m "$blocks/day_1" >"$room/out_1"
    holds 'the desk that was not held up has filed' cmp m "$room/serial_1"
    tail -c +201 "$blocks/day_2" >&9
    exec 9>&-
    holds 'the slow block is filed in the end' wait $slow
    holds 'both blocks are held' cmp m "$room/serial_2"
    rm m pipe
}

# A file that grows past the size the user may write ends the desk by SIGXFSZ.
too_large() {
    local status=0
    cp "$room/serial_0" m
    { (ulimit -f 0 && exec "${desk[@]}" file m "$blocks/day_1") >/dev/null || status=$?; } 2>/dev/null
    holds 'a ledger too large to be written ends the desk' [ $status = $((128 + $(kill -l XFSZ))) ]
    holds 'a ledger too large to be written stays as it was' cmp m "$room/serial_0"
    holds 'a ledger too large to be written leaves nothing' clean m
}

rough() { # WHAT ROUNDS
    what=$1
    rm -rf "$room/trial" "$room"/serial_? "$room/never"
    mkdir "$room/trial"
    mkfifo "$room/never"
    cd "$room/trial"
    serial_ledgers
    at_once "$(($2 / 5))"
    opens_at_once "$(($2 / 10))"
    slow_block
    too_large
    measure
    kill_filing KILL "$2"
    kill_filing TERM "$(($2 / 2))"
    if [ ${#minding[@]} -gt 1 ]; then kill_filing INT "$(($2 / 4))"; else skip 'SIGINT: env has no --default-signal here'; fi
    kill_opening KILL "$(($2 / 4))"
    kill_opening TERM "$(($2 / 4))"
    cd "$here"
}
