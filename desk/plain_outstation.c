/* An outstation with a tariff switching table as one would write it in C: the plain recorder, a table that lies beside its store, whether one is loaded, and whether it is single phase. */
#include "plain.h"

#include "plain_recorder.h"
#include "plain_tariff.h"

struct outstation {
    struct recorder recorder;
    struct store store;
    uint8_t *table;
    size_t table_length;
    bool loaded;
    bool single;
};

/* ---- events */

enum { SINGLE_RATES = 4 };

/* The highest rate that can be chosen. */
static uint32_t most_rate(const struct outstation *o) { return o->single ? SINGLE_RATES : RATES; }

/* The table's room is judged with the store's lengths: before the recorder's fields, and behind a recorder that has no class. Then an active rate that can't be chosen, behind the lengths. */
static uint32_t judge_room(const struct outstation *o) {
    if (o->recorder.cap != 0 && o->table_length != TABLE)
        return LENGTH;
    if (o->recorder.cap != 0 && most_rate(o) < o->recorder.rate)
        return judge_recorder(&o->recorder, &o->store) == LENGTH ? LENGTH : DAMAGED;
    return DONE;
}

/* Where the table names no rate that can be chosen, the active one stays. */
static void switch_rate(struct outstation *o) {
    uint32_t rate = plain_rate_in(o->table, o->recorder.time);
    if (1 <= rate && rate <= most_rate(o))
        o->recorder.rate = rate;
}

static uint32_t count_pulses(struct outstation *o, uint32_t counter) {
    uint32_t bad = judge_room(o);
    return bad == DONE ? count(&o->recorder, &o->store, counter) : bad;
}

static uint32_t clock_on(struct outstation *o, uint64_t t) {
    uint32_t bad = judge_room(o);
    if (bad == DONE)
        bad = clock_to(&o->recorder, &o->store, t);
    if (bad == DONE && o->loaded)
        switch_rate(o);
    return bad;
}

static uint32_t load(struct outstation *o, const uint8_t *offered, size_t length) {
    uint32_t bad = judge_room(o);
    if (bad == DONE)
        bad = judge_recorder(&o->recorder, &o->store);
    if (bad == DONE && !o->recorder.on)
        bad = WRONG_POWER;
    if (bad == DONE && length == TABLE && plain_names_above(offered, most_rate(o)))
        bad = RANGE;
    if (bad == DONE)
        bad = (uint32_t)(plain_table_judge(offered, length) >> 32);
    if (bad != DONE)
        return bad;
    memcpy(o->table, offered, TABLE);
    o->loaded = true;
    switch_rate(o);
    return DONE;
}

/* ---- the loops that are timed, as crates/timed has them: here n does not count the load */

static struct outstation installed(struct store store, uint8_t *table, size_t t) {
    struct outstation o = {.store = store, .table = table, .table_length = t};
    if (t == TABLE) {
        o.recorder = begun(&o.store);
        memset(table, 0, t);
    }
    return o;
}

uint64_t plain_tariff_counts(uint16_t *values, size_t v, uint32_t *starts, size_t p, uint64_t *marks, size_t m, uint8_t *table, size_t t,
                             const uint8_t *offered, size_t o, uint32_t n) {
    struct outstation at = installed((struct store){values, starts, marks, v, p, m}, table, t);
    load(&at, offered, o);
    for (uint32_t i = 0; i < n; i++)
        count_pulses(&at, i + 1);
    return at.recorder.total;
}

uint64_t plain_tariff_clocks(uint16_t *values, size_t v, uint32_t *starts, size_t p, uint64_t *marks, size_t m, uint8_t *table, size_t t,
                             const uint8_t *offered, size_t o, uint32_t n, uint32_t by) {
    struct outstation at = installed((struct store){values, starts, marks, v, p, m}, table, t);
    load(&at, offered, o);
    for (uint32_t i = 0; i < n; i++)
        clock_on(&at, (uint64_t)by * (i + 1));
    return at.recorder.time;
}

uint64_t plain_tariff_loads(uint16_t *values, size_t v, uint32_t *starts, size_t p, uint64_t *marks, size_t m, uint8_t *table, size_t t,
                            const uint8_t *offered, size_t o, uint32_t n) {
    struct outstation at = installed((struct store){values, starts, marks, v, p, m}, table, t);
    for (uint32_t i = 0; i < n; i++)
        load(&at, offered, o);
    return at.recorder.rate;
}
