/* Opening a ledger and filing blocks in it. Blocks are read before the ledger is locked, so that a slow one has no other desk wait; they are filed in
 * memory, the ledger is saved once, and only then is it said what they brought. */
#include "commands.h"
#include "cop6.h"
#include "dates.h"
#include "differ.h"
#include "replace.h"
#include "say.h"

#include <inttypes.h>
#include <stdio.h>
#include <stdlib.h>
#include <string.h>

/* ---- opening */

/* Says which of a window's opening values the library refuses: it is asked of the identifier alone. */
static int refused_opening(char **args, uint32_t first, uint32_t days, uint64_t r) {
    size_t length = (size_t)cop6_ledger_length(1);
    uint8_t *one_day = malloc(length);
    if (one_day == NULL)
        return trouble_with(args[0]);
    uint64_t alone = cop6_open(one_day, length, (const uint8_t *)args[1], strlen(args[1]), 0, 1);
    free(one_day);
    if (COP6_ANSWER(alone) != COP6_DONE)
        return refused_for(args[0], COP6_ANSWER(alone),
                           "%s is not an identifier: three of A-Z, a-z and 0-9, one of A-Z, two digits, six of A-Z and 0-9", args[1]);
    if (days < 1 || days > COP6_MOST_DAYS)
        return refused_for(args[0], COP6_ANSWER(r), "%" PRIu32 " is out of range: a ledger has 1 to %d days", days, COP6_MOST_DAYS);
    return refused_for(args[0], COP6_ANSWER(r), "%" PRIu32 " day%s from %06" PRIu32 " on would end after 991231", days, plural(days), cop6_date(first));
}

/* The new ledger's bytes, none for a number of days that no ledger has. */
static int room_for(const char *name, uint32_t days, struct bytes *ledger) {
    *ledger = (struct bytes){NULL, 0};
    if (days < 1 || days > COP6_MOST_DAYS)
        return DONE;
    ledger->length = (size_t)cop6_ledger_length(days);
    ledger->at = malloc(ledger->length);
    return ledger->at == NULL ? trouble_with(name) : DONE;
}

static int make(const char *name, const struct bytes *ledger) {
    struct place place;
    int status = find_place(name, &place);
    if (status == DONE)
        status = lock_folder(&place);
    if (status == DONE)
        status = make_ledger(&place, ledger);
    if (status == DONE)
        status = settle(&place, "the ledger is opened");
    leave(&place);
    return status;
}

int open_command(char **args, int count) {
    uint32_t first, days;
    struct bytes ledger;
    (void)count;
    int status = date(args[2], &first);
    if (status != DONE)
        return status;
    if (number(args[3], &days) != 0)
        return trouble("%s: not a number of days", args[3]);
    status = room_for(args[0], days, &ledger);
    if (status != DONE)
        return status;
    uint64_t r = cop6_open(ledger.at, ledger.length, (const uint8_t *)args[1], strlen(args[1]), first, days);
    status = COP6_ANSWER(r) == COP6_DONE ? make(args[0], &ledger) : refused_opening(args, first, days, r);
    free(ledger.at);
    return status;
}

/* ---- filing */

/* A block named to be filed, and what became of it. */
struct sent {
    const char *name;
    struct bytes block;
    int read, is_ledger;
    uint64_t answer;
};

static int read_blocks(const struct place *p, char **names, int count, struct sent *sent) {
    int status = DONE;
    for (int i = 0; i < count; i++) {
        struct stat of;
        sent[i].name = name_of(names[i]);
        int got = read_block(names[i], &sent[i].block, &of);
        sent[i].read = got == DONE;
        sent[i].is_ledger = got == DONE && is_ledger(p, names[i], &of);
        status = worse(status, got);
    }
    return status;
}

static int file_each(struct bytes *ledger, struct sent *sent, int count) {
    int status = DONE;
    for (struct sent *s = sent; s < sent + count; s++) {
        if (!s->read)
            continue;
        s->answer = cop6_file(ledger->at, ledger->length, s->block.at, s->block.length);
        if (COP6_ANSWER(s->answer) != COP6_DONE)
            status = worse(status, s->is_ledger ? refused_ledger(s->name) : refused_block(s->name, s->answer, ledger, &s->block));
    }
    return status;
}

static int filed(const struct sent *s) { return s->read && COP6_ANSWER(s->answer) == COP6_DONE; }

/* What of a filed block the window could take: its days, those outside, and whether it has none but a newest day of which no half-hour had ended. */
struct reach {
    uint32_t days, outside, fresh;
};

static struct reach reach_of(const struct sent *s, uint64_t window) {
    uint64_t head[COP6_HEADER] = {0};
    cop6_header(s->block.at, s->block.length, head, COP6_HEADER);
    uint64_t newest = head[COP6_HEAD_TIME] / SECONDS_OF_DAY, first = COP6_FIRST(window), end = first + COP6_COUNT(window);
    struct reach x = {.days = (uint32_t)head[COP6_HEAD_DAYS]};
    for (uint64_t i = 0; i < x.days; i++)
        x.outside += newest < first + i || newest - i >= end;
    x.fresh = x.days > 0 && first <= newest && newest < end && head[COP6_HEAD_TIME] % SECONDS_OF_DAY < SECONDS_OF_HALF;
    return x;
}

/* A line for a filed block: what it brought, and why it brought no more. */
static void tell_block(const struct sent *s, struct reach x) {
    uint32_t newly = COP6_CARRIED(s->answer);
    const char *between = newly == 0 ? ": " : "; ";
    printf("%s: %" PRIu32 " half-hour%s newly held", s->name, newly, plural(newly));
    if (x.days == 0)
        printf(": it has no days");
    if (newly == 0 && x.outside + x.fresh < x.days) {
        printf("%salready held", between);
        between = ", ";
    }
    if (newly == 0 && x.fresh) {
        printf("%sno half-hour of its newest day had ended", between);
        between = ", ";
    }
    if (x.outside > 0 && x.days == 1)
        printf("%sits day is outside the window", between);
    else if (x.outside > 0)
        printf("%s%" PRIu32 " of its %" PRIu32 " days %s outside the window", between, x.outside, x.days, x.outside == 1 ? "is" : "are");
    putchar('\n');
}

static void tell_all(const struct sent *sent, int count, uint64_t window) {
    uint64_t blocks = 0, newly = 0, refusals = 0, outside = 0, unread = 0;
    for (const struct sent *s = sent; s < sent + count; s++) {
        unread += !s->read;
        refusals += s->read && !filed(s);
        if (!filed(s))
            continue;
        struct reach x = reach_of(s, window);
        tell_block(s, x);
        blocks++;
        newly += COP6_CARRIED(s->answer);
        outside += x.outside;
    }
    printf("%" PRIu64 " block%s filed, %" PRIu64 " half-hour%s newly held, ", blocks, plural(blocks), newly, plural(newly));
    printf("%" PRIu64 " block%s refused, %" PRIu64 " day%s outside the window", refusals, plural(refusals), outside, plural(outside));
    if (unread > 0)
        printf(", %" PRIu64 " not read", unread);
    putchar('\n');
}

/* Saves what has changed. What had been filed before is settled too: the desk that filed it may not have come so far. */
static int save_filed(struct place *p, const struct bytes *ledger, const uint8_t *before, const struct sent *sent, int count) {
    int any = 0;
    for (int i = 0; i < count; i++)
        any = any || filed(sent + i);
    if (!any)
        return DONE;
    int saved = memcmp(before, ledger->at, ledger->length) == 0 ? DONE : replace_ledger(p, ledger);
    return saved == DONE ? settle(p, "the half-hours are filed") : saved;
}

static int file_in(struct place *p, struct bytes *ledger, struct sent *sent, int count) {
    uint64_t window = cop6_window(ledger->at, ledger->length);
    if (COP6_ANSWER(window) != COP6_DONE)
        return refused(p->name, window);
    uint8_t *before = malloc(ledger->length);
    if (before == NULL)
        return trouble_with(p->name);
    memcpy(before, ledger->at, ledger->length);
    int status = file_each(ledger, sent, count);
    int saved = save_filed(p, ledger, before, sent, count);
    if (saved == DONE || saved == UNSURE)
        tell_all(sent, count, window);
    free(before);
    return worse(status, saved);
}

static int file_locked(struct place *p, struct sent *sent, int count) {
    struct bytes ledger;
    int status = lock_ledger(p);
    if (status == DONE)
        status = read_all(p->lock, p->name, most_ledger(), &ledger);
    if (status == DONE) {
        status = file_in(p, &ledger, sent, count);
        free(ledger.at);
    }
    return status;
}

int file_command(char **args, int count) {
    struct place place;
    int blocks = count - 1, status = find_ledger(args[0], &place);
    struct sent *sent = status == DONE ? calloc((size_t)blocks, sizeof *sent) : NULL;
    if (status == DONE && sent == NULL)
        status = trouble_with(args[0]);
    if (status == DONE) {
        status = read_blocks(&place, args + 1, blocks, sent);
        status = worse(status, file_locked(&place, sent, blocks));
        for (int i = 0; i < blocks; i++)
            free(sent[i].block.at);
    }
    free(sent);
    leave(&place);
    return status;
}
