# shellcheck shell=bash
# Sourced by desk/test: calls of the system that fail, and signals at each of them, by a library that is preloaded into the desk. A file that can't be
# written leaves the ledger as it was; a folder that can't be synced is said, and the half-hours are filed.

with_fault() { # FAULT WORD..
    local fault=$1
    shift
    "${preloaded[@]}" DESK_FAULT="$fault" "${desk[@]}" "$@"
}

# A filing with a fault, held to desk/expected/fault_NAME; then the ledger is SERIAL, and alone.
fault_filing() { # NAME SERIAL FAULT [SERIAL-BEFORE]
    local status=0
    cp "$room/${4:-serial_0}" m
    with_fault "$3" file m ../blocks/day_1 >"$room/out" 2>"$room/err" || status=$?
    compare "fault_$1" $status
    holds "fault_$1: the ledger" cmp m "$room/$2"
    holds "fault_$1: nothing is left" clean m
}

fault_opening() { # NAME FAULT WHAT_IS_THERE
    local status=0
    rm -f m
    with_fault "$2" open m $meter 240401 4 >"$room/out" 2>"$room/err" || status=$?
    compare "fault_open_$1" $status
    holds "fault_open_$1: nothing is left" [ "$(ls)" = "$3" ]
}

failing() {
    fault_filing write serial_0 'write fails 28'
    fault_filing fsync serial_0 'fsync fails 5'
    fault_filing fchmod serial_0 'fchmod fails 1'
    fault_filing rename serial_0 'rename fails 13'
    fault_filing open_new serial_0 'open-new fails 13'
    fault_filing lock serial_0 'flock fails 37'
    fault_filing folder_sync serial_1 'fsync-folder fails 5'
    fault_filing folder_again serial_1 'fsync-folder fails 5' serial_1
    fault_filing folder_open serial_1 'open-folder fails 13'
    fault_filing folder_no_sync serial_1 'fsync-folder fails 22'
    fault_opening link 'link fails 1' ''
    fault_opening exists 'link fails 17' ''
    fault_opening write 'write fails 28' ''
    fault_opening folder_open 'open-folder fails 13' ''
    fault_opening folder_sync 'fsync-folder fails 5' m
    holds 'a ledger that is opened and not made sure is whole' cmp m "$room/serial_0"
    if [ "$(id -u)" = 0 ]; then
        local status=0
        cp "$room/serial_0" m
        chown 1:2 m
        with_fault 'fchown fails 1' file m ../blocks/day_1 >"$room/out" 2>"$room/err" || status=$?
        compare fault_owner $status
        holds 'fault_owner: the ledger' cmp m "$room/serial_0"
        holds 'fault_owner: its owner' [ "$(stat -c %u:%g m) $(ls)" = '1:2 m' ]
    else
        skip 'a ledger of another owner: only root can make one'
    fi
}

# A signal at a call: the desk ends by it, and leaves its new file where it is SIGKILL alone; the next desk goes on from there.
struck_at() { # CALL HOW SIGNAL WORD..
    local at="$1 $2 $3" status=0
    { with_fault "$1 $2 $(kill -l "$3")" "${@:4}" >/dev/null || status=$?; } 2>/dev/null
    [ $status = $((128 + $(kill -l "$3"))) ] || fail "$what: $4: $at: it ended with $status"
    [ "$3" = KILL ] || [ ! -e m.new ] || fail "$what: $4: $at: its new file is left"
    checks=$((checks + 1))
}

go_on() { # AFTER
    "${desk[@]}" file m ../blocks/day_1 >/dev/null || fail "$what: $1: the next filing fails"
    if ! cmp -s m "$room/serial_1" || ! clean m; then fail "$what: $1: $(ls)"; fi
}

struck_filing() { # CALL HOW SIGNAL
    cp "$room/serial_0" m
    struck_at "$1" "$2" "$3" file m ../blocks/day_1
    cmp -s m "$room/serial_0" || cmp -s m "$room/serial_1" || fail "$what: file: $1 $2 $3: the ledger is torn"
    go_on "file: after $1 $2 $3"
}

struck_opening() { # CALL HOW SIGNAL
    rm -f m
    struck_at "$1" "$2" "$3" open m $meter 240401 4
    [ -e m ] || "${desk[@]}" open m $meter 240401 4
    go_on "open: after $1 $2 $3"
}

signals() {
    local call how signal
    if [ ${#minding[@]} = 1 ]; then
        skip 'signals at each call, which may be ignored: env has no --default-signal here'
        return
    fi
    for how in before after; do
        for signal in KILL TERM INT; do
            for call in open-new write fchmod fsync rename fsync-folder; do
                struck_filing $call $how $signal
            done
            for call in open-new write fchmod fsync link unlink fsync-folder; do
                struck_opening $call $how $signal
            done
        done
        for signal in HUP QUIT PIPE ALRM USR1 USR2 XCPU XFSZ VTALRM PROF IO; do
            struck_filing write $how $signal
        done
    done
}

# The first desk is stopped at a call, and the second must wait for it; then the first goes on, and both come to their end.
waits() { # CALL HOW FIRST SECOND ITS-STATUS
    local at="$1 $2: $4" first second state='' tries=0 status=0
    # shellcheck disable=SC2086
    "${preloaded[@]}" DESK_FAULT="$1 $2 $(kill -l STOP)" "${desk[@]}" $3 >/dev/null &
    first=$!
    until [ "$state" = T ] || [ $((++tries)) = 1000 ]; do
        nap 10000
        read -r _ _ state _ <"/proc/$first/stat"
    done
    rm -f "$room/second"
    # shellcheck disable=SC2086
    { timeout 60 "${desk[@]}" $4 >/dev/null 2>&1 || status=$?; echo $status >"$room/second"; } &
    second=$!
    nap 300000
    holds "$at: does not wait" [ ! -e "$room/second" ]
    kill -CONT $first
    holds "$at: the first desk" wait $first
    wait $second
    holds "$at: the second desk" [ "$(cat "$room/second")" = "$5" ]
}

waiting() {
    local open="open m $meter 240401 4"
    cp "$room/serial_0" m
    waits rename before 'file m ../blocks/day_1' 'file m ../blocks/day_2' 0
    holds 'both are filed' cmp m "$room/serial_2"
    rm m
    waits link after "$open" 'file m ../blocks/day_1' 0
    holds 'a block is filed in a ledger that was being opened' cmp m "$room/serial_1"
    rm m
    waits link before "$open" "$open" 2
    holds 'the ledger of the first opening' cmp m "$room/serial_0"
    holds 'desks that waited leave nothing' clean m
}

faults() { # WHAT
    what="$1, with faults"
    rm -rf "$room/trial" "$room"/serial_?
    mkdir "$room/trial"
    [ -p "$room/never" ] || mkfifo "$room/never"
    "${compile[@]}" -shared -fPIC -o "$room/faults.so" desk/testing/faults.c -ldl
    # The address sanitizer minds that another library comes before its own, unless told not to.
    preloaded=("${minding[@]}" LD_PRELOAD="$room/faults.so" ASAN_OPTIONS=verify_asan_link_order=0)
    cd "$room/trial"
    if with_fault 'fsync-folder fails 5' open m $meter 240401 4 2>/dev/null; then
        skip 'faults: a library is not preloaded into the desk here'
    else
        serial_ledgers
        rm m
        failing
        signals
        waiting
    fi
    cd "$here"
}
