/* The recorder's events as one would write them in C: the recorder is a struct that is changed in place, the store three slices. Each event judges the recorder
 * and the store, as the library's do. They are here for the loops that are timed, so that an event becomes part of its loop. */
#ifndef PLAIN_RECORDER_H
#define PLAIN_RECORDER_H

#include "plain_parts.h"

struct recorder {
    uint8_t identifier[IDENTIFIER];
    uint32_t cap; /* the days that the class holds */
    uint64_t weight;
    uint64_t time;
    bool on;
    uint32_t days;
    uint64_t total;
    uint32_t last, rate;
    uint64_t rates[RATES];
    uint32_t current, previous, cumulative, reset, count;
    uint32_t base; /* the reading as the running half-hour began, and its marks */
    bool reverse, level2;
};

struct store {
    uint16_t *values;
    uint32_t *starts;
    uint64_t *marks;
    size_t values_length, starts_length, marks_length;
};

/* ---- judged */

static inline bool in_range(const struct recorder *r) {
    for (size_t i = 0; i < RATES; i++)
        if (r->rates[i] >= TOTAL_ROUND)
            return false;
    return identifier(r->identifier) && 1 <= r->weight && r->weight <= MOST_WEIGHT && r->time < TIMES_IN_ALL && 1 <= r->days && r->days <= r->cap &&
           r->days <= r->time / SECONDS_OF_DAY + 1 && r->total < TOTAL_ROUND && 1 <= r->rate && r->rate <= RATES && r->current < DEMAND_ROUND &&
           r->previous < DEMAND_ROUND && r->cumulative < DEMAND_ROUND && r->reset <= DAYS_IN_ALL && r->count < COUNT_ROUND && r->base < READING_ROUND;
}

static inline uint32_t judge_recorder(const struct recorder *r, const struct store *s) {
    if (r->cap == 0)
        return DAMAGED;
    if (s->values_length != HALVES * (size_t)r->cap || s->starts_length != r->cap || s->marks_length != STORE_WORDS * (size_t)r->cap)
        return LENGTH;
    return in_range(r) ? DONE : DAMAGED;
}

/* ---- events */

static inline uint32_t set_up(struct recorder *r, struct store *s, const char *name, uint32_t cap, uint64_t weight, uint64_t time, uint64_t total,
                              uint32_t counter) {
    memset(r, 0, sizeof *r);
    if (!identifier((const uint8_t *)name) || weight < 1 || weight > MOST_WEIGHT || time >= TIMES_IN_ALL || total >= TOTAL_ROUND)
        return RANGE;
    if (s->values_length != HALVES * (size_t)cap || s->starts_length != cap || s->marks_length != STORE_WORDS * (size_t)cap)
        return LENGTH;
    memcpy(r->identifier, name, IDENTIFIER);
    r->cap = cap;
    r->weight = weight;
    r->time = time;
    r->on = true;
    r->days = 1;
    r->total = total;
    r->last = counter;
    r->rate = 1;
    r->base = (uint32_t)(total / REGISTER_UNIT);
    memset(s->values, 0, s->values_length * sizeof *s->values);
    memset(s->starts, 0, s->starts_length * sizeof *s->starts);
    memset(s->marks, 0, s->marks_length * sizeof *s->marks);
    uint32_t room = (uint32_t)(time / SECONDS_OF_DAY % cap), ended = (uint32_t)(time % SECONDS_OF_DAY / SECONDS_OF_HALF);
    for (uint32_t j = 0; j < ended; j++)
        s->values[HALVES * room + j] = (uint16_t)(r->base % VALUE_ROUND);
    s->starts[room] = r->base;
    return DONE;
}

static inline uint32_t count(struct recorder *r, struct store *s, uint32_t counter) {
    uint32_t bad = judge_recorder(r, s);
    if (bad != DONE)
        return bad;
    if (!r->on)
        return WRONG_POWER;
    uint64_t added = (uint64_t)(uint32_t)(counter - r->last) * r->weight, reading = r->total / REGISTER_UNIT;
    uint64_t passed = reading >= r->base ? reading - r->base : reading + READING_ROUND - r->base;
    if (passed + (r->total + added) / REGISTER_UNIT - reading >= VALUE_ROUND)
        return TOO_MUCH;
    r->total = (r->total + added) % TOTAL_ROUND;
    r->rates[r->rate - 1] = (r->rates[r->rate - 1] + added) % TOTAL_ROUND;
    r->last = counter;
    return DONE;
}

static inline uint64_t taken_in(uint64_t word, bool mark) { return (word << 1 | mark) % WORD_ROUND; }

/* The next day takes its room. */
static inline uint32_t opened(struct store *s, uint32_t room, uint32_t cap, uint32_t reading) {
    room = room + 1 == cap ? 0 : room + 1;
    s->starts[room] = reading;
    s->marks[STORE_WORDS * room + STORE_REVERSE] = s->marks[STORE_WORDS * room + STORE_LEVEL2] = s->marks[STORE_WORDS * room + STORE_FLAGS] = 0;
    return room;
}

/* The half-hours from q up to another are passed over, those of a day together. Of more than the store has places for, those whose places later ones take are
 * left out. */
static inline void pass_over(struct store *s, uint32_t q, uint32_t to, uint32_t cap, uint32_t reading) {
    if (to - q > cap * HALVES)
        q = to - cap * HALVES;
    uint32_t room = q / HALVES % cap, half = q % HALVES;
    uint16_t value = (uint16_t)(reading % VALUE_ROUND);
    while (q < to) {
        uint32_t n = HALVES - half < to - q ? HALVES - half : to - q;
        uint16_t *values = s->values + HALVES * room + half;
        uint64_t *marks = s->marks + STORE_WORDS * room;
        for (uint32_t j = 0; j < n; j++)
            values[j] = value;
        for (uint32_t w = STORE_REVERSE; w <= STORE_LEVEL2; w++)
            marks[w] = n == HALVES ? 0 : (marks[w] << n) % WORD_ROUND;
        q += n;
        half += n;
        if (half == HALVES) {
            half = 0;
            room = opened(s, room, cap, reading);
        }
    }
}

/* The running half-hour, q, ends. */
static inline void end_half(struct recorder *r, struct store *s, uint32_t q, uint32_t reading) {
    uint32_t value = reading % VALUE_ROUND, room = q / HALVES % r->cap, half = q % HALVES, before = r->base % VALUE_ROUND;
    uint32_t demand = 2 * (value >= before ? value - before : value + VALUE_ROUND - before);
    s->values[HALVES * room + half] = (uint16_t)value;
    s->marks[STORE_WORDS * room + STORE_REVERSE] = taken_in(s->marks[STORE_WORDS * room + STORE_REVERSE], r->reverse);
    s->marks[STORE_WORDS * room + STORE_LEVEL2] = taken_in(s->marks[STORE_WORDS * room + STORE_LEVEL2], r->level2);
    if (half + 1 == HALVES)
        opened(s, room, r->cap, reading);
    r->current = demand > r->current ? demand : r->current;
    r->base = reading;
    r->reverse = r->level2 = false;
}

static inline void go_on(struct recorder *r, struct store *s, uint64_t t) {
    uint32_t q = (uint32_t)(r->time / SECONDS_OF_HALF), to = (uint32_t)(t / SECONDS_OF_HALF);
    if (q < to) {
        uint32_t reading = (uint32_t)(r->total / REGISTER_UNIT);
        end_half(r, s, q, reading);
        pass_over(s, q + 1, to, r->cap, reading);
    }
    uint64_t days = r->days + (t / SECONDS_OF_DAY - r->time / SECONDS_OF_DAY);
    r->days = days < r->cap ? (uint32_t)days : r->cap;
    r->time = t;
    r->on = true;
}

static inline uint32_t judge_time(const struct recorder *r, const struct store *s, bool on, uint64_t t) {
    uint32_t bad = judge_recorder(r, s);
    if (bad != DONE)
        return bad;
    if (r->on != on)
        return WRONG_POWER;
    return t < r->time || t >= TIMES_IN_ALL ? WRONG_TIME : DONE;
}

static inline uint32_t clock_to(struct recorder *r, struct store *s, uint64_t t) {
    uint32_t bad = judge_time(r, s, true, t);
    if (bad == DONE)
        go_on(r, s, t);
    return bad;
}

static inline uint32_t off(struct recorder *r, struct store *s) {
    uint32_t bad = judge_recorder(r, s);
    if (bad != DONE)
        return bad;
    if (!r->on)
        return WRONG_POWER;
    r->on = false;
    return DONE;
}

/* Each stored day of the outage gets its flag. */
static inline uint32_t on_at(struct recorder *r, struct store *s, uint64_t t) {
    uint32_t bad = judge_time(r, s, false, t);
    if (bad != DONE)
        return bad;
    uint32_t day = (uint32_t)(r->time / SECONDS_OF_DAY);
    go_on(r, s, t);
    uint32_t end = (uint32_t)(t / SECONDS_OF_DAY) + 1;
    for (day = day + r->days < end ? end - r->days : day; day < end; day++)
        s->marks[STORE_WORDS * (day % r->cap) + STORE_FLAGS] |= POWER_LOST;
    return DONE;
}

/* Set up as the loops have it. */
static inline struct recorder begun(struct store *s) {
    struct recorder r;
    set_up(&r, s, "ABCX24000017", CLASS_D_DAYS, WATT_HOUR, 0, 0, 0);
    return r;
}

#endif
