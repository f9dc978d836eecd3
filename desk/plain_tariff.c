/* The tariff switching table as one would write it in C, from docs/TARIFF.md alone: slots are looked at where they lie. */
#include "plain_tariff.h"

#include "plain.h"
#include "plain_parts.h"

/* The entries by their first byte. Of those that cover a day, the lowest number names its type. */
enum { UNUSED, SWITCHING, EXCEPTION, WEEKDAYS, DEFAULT };
enum { MOST_SWITCHINGS = 48, MOST_EXCEPTIONS = 32, DAY_TYPES = 8, EVERY_YEAR = 100, HOURS = 24, MINUTES = 60, MINUTES_OF_DAY = HOURS * MINUTES };
enum { DAYS_OF_WEEK = 7, HALF_MINUTES = MINUTES_OF_DAY / HALVES };

/* ---- judged */

static bool within(uint32_t least, uint32_t x, uint32_t most) { return least <= x && x <= most; }

/* A date of one year, or of every year one that a leap year has. */
static bool date_ok(uint32_t year, uint32_t month, uint32_t day) {
    uint32_t number;
    return year <= EVERY_YEAR && month <= 12 && day <= 31 && day_of((year == EVERY_YEAR ? 0 : year) * 10000 + month * 100 + day, &number);
}

static bool slot_ok(const uint8_t *s) {
    uint32_t third = s[SLOT_THIRD], fourth = s[SLOT_FOURTH], fifth = s[SLOT_FIFTH];
    if (s[SLOT_ENTRY] != UNUSED && !within(1, s[SLOT_TYPE], DAY_TYPES))
        return false;
    switch (s[SLOT_ENTRY]) {
    case UNUSED: return s[SLOT_TYPE] == 0 && third == 0 && fourth == 0 && fifth == 0;
    case SWITCHING: return third < HOURS && fourth < MINUTES && within(1, fifth, RATES);
    case EXCEPTION: return date_ok(third, fourth, fifth);
    case WEEKDAYS: return within(1, third, DAYS_OF_WEEK) && within(third, fourth, DAYS_OF_WEEK) && fifth == 0;
    case DEFAULT: return third == 0 && fourth == 0 && fifth == 0;
    default: return false;
    }
}

bool plain_names_above(const uint8_t *table, uint32_t rate) {
    for (const uint8_t *s = table; s < table + TABLE; s += SLOT)
        if (s[SLOT_ENTRY] == SWITCHING && rate < s[SLOT_FIFTH])
            return true;
    return false;
}

/* What has been seen of a table: sets of minutes, of weekdays and of day types are bits. */
struct seen {
    uint8_t minutes[DAY_TYPES][MINUTES_OF_DAY / 8];
    const uint8_t *exception[MOST_EXCEPTIONS];
    uint32_t switchings, exceptions, defaults, weekdays, used, from_midnight;
    bool clash;
};

static void see_switching(struct seen *seen, const uint8_t *s) {
    uint32_t minute = s[SLOT_THIRD] * (uint32_t)MINUTES + s[SLOT_FOURTH];
    uint8_t *of = &seen->minutes[s[SLOT_TYPE] - 1][minute / 8], bit = (uint8_t)(1u << minute % 8);
    seen->switchings++;
    seen->clash = seen->clash || (*of & bit) != 0;
    *of |= bit;
    if (minute == 0)
        seen->from_midnight |= 1u << s[SLOT_TYPE];
}

static bool one_day(const uint8_t *a, const uint8_t *b) {
    return a[SLOT_FOURTH] == b[SLOT_FOURTH] && a[SLOT_FIFTH] == b[SLOT_FIFTH] &&
           (a[SLOT_THIRD] == b[SLOT_THIRD] || a[SLOT_THIRD] == EVERY_YEAR || b[SLOT_THIRD] == EVERY_YEAR);
}

static void see_exception(struct seen *seen, const uint8_t *s) {
    if (seen->exceptions < MOST_EXCEPTIONS) {
        for (uint32_t i = 0; i < seen->exceptions; i++)
            seen->clash = seen->clash || one_day(seen->exception[i], s);
        seen->exception[seen->exceptions] = s;
    }
    seen->exceptions++;
}

static void see_weekdays(struct seen *seen, const uint8_t *s) {
    uint32_t days = (2u << s[SLOT_FOURTH]) - (1u << s[SLOT_THIRD]);
    seen->clash = seen->clash || (seen->weekdays & days) != 0;
    seen->weekdays |= days;
}

static void see(struct seen *seen, const uint8_t *s) {
    if (s[SLOT_ENTRY] == SWITCHING) {
        see_switching(seen, s);
        return;
    }
    if (s[SLOT_ENTRY] == EXCEPTION)
        see_exception(seen, s);
    if (s[SLOT_ENTRY] == WEEKDAYS)
        see_weekdays(seen, s);
    seen->defaults += s[SLOT_ENTRY] == DEFAULT;
    seen->used |= s[SLOT_ENTRY] == UNUSED ? 0 : 1u << s[SLOT_TYPE];
}

static uint32_t judge_table(const uint8_t *table, size_t length, struct seen *seen) {
    if (length != TABLE)
        return RANGE;
    memset(seen, 0, sizeof *seen);
    for (const uint8_t *s = table; s < table + TABLE; s += SLOT) {
        if (!slot_ok(s))
            return RANGE;
        see(seen, s);
    }
    if (seen->switchings > MOST_SWITCHINGS || seen->exceptions > MOST_EXCEPTIONS || seen->defaults == 0 || (seen->used & ~seen->from_midnight) != 0)
        return RANGE;
    return seen->clash || seen->defaults > 1 ? CLASH : DONE;
}

uint64_t plain_table_judge(const uint8_t *table, size_t length) {
    struct seen seen;
    return answer(judge_table(table, length, &seen), 0);
}

/* ---- the rate */

static uint32_t weekday_of(uint32_t day) { return (day + 5) % DAYS_OF_WEEK + 1; } /* 2000-01-01 was a Saturday */

/* Whether an entry covers a day, of which the weekday is given too. */
static bool covers(const uint8_t *s, uint32_t date, uint32_t weekday) {
    switch (s[SLOT_ENTRY]) {
    case EXCEPTION:
        return s[SLOT_FOURTH] * 100u + s[SLOT_FIFTH] == date % 10000 && (s[SLOT_THIRD] == EVERY_YEAR || s[SLOT_THIRD] == date / 10000);
    case WEEKDAYS: return within(s[SLOT_THIRD], weekday, s[SLOT_FOURTH]);
    default: return s[SLOT_ENTRY] == DEFAULT;
    }
}

/* The day type of a day; 0 where no entry covers it. */
static uint32_t day_type(const uint8_t *table, uint32_t day) {
    uint32_t date = date_of(day), weekday = weekday_of(day), entry = DEFAULT + 1, type = 0;
    for (const uint8_t *s = table; s < table + TABLE; s += SLOT)
        if (s[SLOT_ENTRY] < entry && covers(s, date, weekday)) {
            entry = s[SLOT_ENTRY];
            type = s[SLOT_TYPE];
        }
    return type;
}

uint32_t plain_rate_in(const uint8_t *table, uint64_t time) {
    uint32_t type = day_type(table, (uint32_t)(time / SECONDS_OF_DAY)), minute = (uint32_t)(time % SECONDS_OF_DAY / 60), latest = 0, rate = 0;
    for (const uint8_t *s = table; s < table + TABLE; s += SLOT) {
        uint32_t at = s[SLOT_THIRD] * (uint32_t)MINUTES + s[SLOT_FOURTH];
        if (s[SLOT_ENTRY] == SWITCHING && s[SLOT_TYPE] == type && latest <= at && at <= minute) {
            latest = at;
            rate = s[SLOT_FIFTH];
        }
    }
    return rate;
}

uint64_t plain_table_rate(const uint8_t *table, size_t length, uint64_t time) {
    struct seen seen;
    uint32_t bad = judge_table(table, length, &seen);
    if (bad == RANGE || time >= TIMES_IN_ALL)
        return answer(RANGE, 0);
    return bad == DONE ? answer(DONE, plain_rate_in(table, time)) : answer(bad, 0);
}

/* ---- a week */

/* The rate that each minute of a day type switches to, 0 where none. */
static void take_switchings(const uint8_t *table, uint32_t type, uint8_t at[MINUTES_OF_DAY]) {
    memset(at, 0, MINUTES_OF_DAY);
    for (const uint8_t *s = table; s < table + TABLE; s += SLOT)
        if (s[SLOT_ENTRY] == SWITCHING && s[SLOT_TYPE] == type)
            at[s[SLOT_THIRD] * MINUTES + s[SLOT_FOURTH]] = s[SLOT_FIFTH];
}

static uint8_t *put_halves(uint8_t *out, const uint8_t at[MINUTES_OF_DAY]) {
    uint8_t rate = 0;
    for (uint32_t begins = 0; begins < MINUTES_OF_DAY; begins += HALF_MINUTES) {
        bool changes = false;
        for (uint32_t minute = begins; minute < begins + HALF_MINUTES; minute++)
            if (at[minute] != 0 && at[minute] != rate) {
                changes = minute > begins;
                rate = at[minute];
            }
        *out++ = (uint8_t)(changes ? '+' : '0' + rate);
    }
    return out;
}

static uint8_t *put_day(uint8_t *out, const uint8_t *table, uint32_t day) {
    uint8_t at[MINUTES_OF_DAY];
    uint32_t type = day_type(table, day);
    take_switchings(table, type, at);
    out = put_digits(out, DATE_DIGITS, date_of(day));
    *out++ = ' ';
    out = put_digits(out, 1, weekday_of(day));
    *out++ = ' ';
    out = put_digits(out, 1, type);
    *out++ = ' ';
    out = put_halves(out, at);
    *out++ = '\n';
    return out;
}

static uint8_t *put_type(uint8_t *out, const uint8_t *table, uint32_t type) {
    uint8_t at[MINUTES_OF_DAY];
    take_switchings(table, type, at);
    out = put_digits(out, 1, type);
    for (uint32_t minute = 0; minute < MINUTES_OF_DAY; minute++)
        if (at[minute] != 0) {
            if (minute > 0)
                *out++ = ',';
            *out++ = ' ';
            out = put_digits(out, 4, minute / MINUTES * 100 + minute % MINUTES);
            *out++ = ' ';
            out = put_digits(out, 1, at[minute]);
        }
    *out++ = '\n';
    return out;
}

/* The lines of a week: a day's, and a day type's before its switching times and for each of them. */
enum { DAY_LINE = DATE_DIGITS + 1 + 1 + 1 + 1 + 1 + HALVES + 1, TYPE_LINE = 1, TIME_IN_LINE = 8 };
enum { LONGEST = DAYS_OF_WEEK * DAY_LINE + DAY_TYPES * TYPE_LINE + MOST_SWITCHINGS * TIME_IN_LINE };

uint64_t plain_table_week(const uint8_t *table, size_t length, uint32_t day, uint8_t *out, size_t room) {
    struct seen seen;
    uint8_t text[LONGEST], *end = text;
    uint32_t bad = judge_table(table, length, &seen);
    if (bad == RANGE || day > DAYS_IN_ALL - DAYS_OF_WEEK)
        return answer(RANGE, 0);
    if (bad != DONE)
        return answer(bad, 0);
    for (uint32_t i = 0; i < DAYS_OF_WEEK; i++)
        end = put_day(end, table, day + i);
    for (uint32_t type = 1; type <= DAY_TYPES; type++)
        if ((seen.used >> type & 1) != 0)
            end = put_type(end, table, type);
    size_t needed = (size_t)(end - text);
    if (room < needed)
        return answer(SHORT, needed);
    memcpy(out, text, needed);
    return answer(DONE, needed);
}
