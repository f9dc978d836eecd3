/* Times the library and the plain C of the same calls, on the same buffers, one after the other in turn: the best of many rounds of each. What the two
 * answer, and leave in memory, is held against each other in every round. */
#define _POSIX_C_SOURCE 200809L

#include "cop6.h"
#include "plain.h"
#include "sample.h"
#include "timing.h"

#include <inttypes.h>
#include <stdio.h>
#include <stdlib.h>
#include <string.h>
#include <time.h>

enum { DAYS = COP6_MOST_DAYS, LEDGER = COP6_LEDGER_BYTES(DAYS), BLOCK = COP6_BLOCK_BYTES(DAYS), DAY = 8825, ENDED = 30, READ = COP6_BLOCK_BYTES(TIMED_DAYS) };
enum { COUNTS = 20000, CLOCKS = 20000, YEARS = 99, READS = 20, LOADS = 2000, HALF_HOUR = 1800, DAY_SECONDS = 86400, YEAR = 31557600 };
/* 01:10 of the day that fills the store, and 2099-12-31 23:59:59, a century on. */
enum { FULL = (TIMED_DAYS - 1) * DAY_SECONDS + 70 * 60 };
#define CENTURY UINT32_C(3155759999)
/* The rate that the full table, made from this seed, has at 2000-01-01 00:00:00. */
enum { SEED = 1, FIRST_RATE = 7 };
#define FIGURES(number) FIGURES_OF(number)
#define FIGURES_OF(number) #number

static uint8_t block[BLOCK], fresh[LEDGER], offered[COP6_TABLE_BYTES];
static size_t block_length;

/* What the calls may change: the library's, and the plain C's. */
struct memory {
    uint8_t ledger[LEDGER], read[READ], table[COP6_TABLE_BYTES];
    uint64_t summary[COP6_SUMMARY], marks[TIMED_WORDS * TIMED_DAYS];
    uint32_t starts[TIMED_DAYS];
    uint16_t values[COP6_HALVES * TIMED_DAYS];
};
static struct memory ours, theirs;

static uint64_t nanoseconds(void) {
    struct timespec t;
    clock_gettime(CLOCK_MONOTONIC, &t);
    return (uint64_t)t.tv_sec * 1000000000u + (uint64_t)t.tv_nsec;
}

/* ---- what is timed: by the library, and in plain C. `before` readies the memory, and is not timed. */

static void nothing(struct memory *m) { (void)m; }
static void empty_ledger(struct memory *m) { memcpy(m->ledger, fresh, LEDGER); }

#define STORE(m) (m)->values, COP6_HALVES *TIMED_DAYS, (m)->starts, TIMED_DAYS, (m)->marks, TIMED_WORDS *TIMED_DAYS

#define TARIFF(m) STORE(m), (m)->table, COP6_TABLE_BYTES, offered, COP6_TABLE_BYTES

static uint64_t library_read(struct memory *m) { return (void)m, cop6_read(block, block_length); }
static uint64_t c_read(struct memory *m) { return (void)m, plain_read(block, block_length); }
static uint64_t library_file(struct memory *m) { return cop6_file(m->ledger, LEDGER, block, block_length); }
static uint64_t c_file(struct memory *m) { return plain_file(m->ledger, LEDGER, block, block_length); }
static uint64_t library_summary(struct memory *m) { return cop6_summary(m->ledger, LEDGER, DAY - 7, m->summary, COP6_SUMMARY); }
static uint64_t c_summary(struct memory *m) { return plain_summary(m->ledger, LEDGER, DAY - 7, m->summary, COP6_SUMMARY); }

static uint64_t library_counts(struct memory *m) { return timed_counts(STORE(m), COUNTS); }
static uint64_t c_counts(struct memory *m) { return plain_counts(STORE(m), COUNTS); }
static uint64_t library_clocks(struct memory *m) { return timed_clocks(STORE(m), CLOCKS, HALF_HOUR); }
static uint64_t c_clocks(struct memory *m) { return plain_clocks(STORE(m), CLOCKS, HALF_HOUR); }
static uint64_t library_years(struct memory *m) { return timed_clocks(STORE(m), YEARS, YEAR); }
static uint64_t c_years(struct memory *m) { return plain_clocks(STORE(m), YEARS, YEAR); }
static uint64_t library_century(struct memory *m) { return timed_clocks(STORE(m), 1, CENTURY); }
static uint64_t c_century(struct memory *m) { return plain_clocks(STORE(m), 1, CENTURY); }
static uint64_t library_outages(struct memory *m) { return timed_outages(STORE(m), 2 * YEARS, YEAR); }
static uint64_t c_outages(struct memory *m) { return plain_outages(STORE(m), 2 * YEARS, YEAR); }
static uint64_t library_long_outage(struct memory *m) { return timed_outages(STORE(m), 2, CENTURY); }
static uint64_t c_long_outage(struct memory *m) { return plain_outages(STORE(m), 2, CENTURY); }
static uint64_t library_reads(struct memory *m) { return timed_reads(STORE(m), m->read, READ, READS, FULL); }
static uint64_t c_reads(struct memory *m) { return plain_reads(STORE(m), m->read, READ, READS, FULL); }
static uint64_t library_last_reads(struct memory *m) { return timed_reads(STORE(m), m->read, READ, READS, CENTURY); }
static uint64_t c_last_reads(struct memory *m) { return plain_reads(STORE(m), m->read, READ, READS, CENTURY); }

static uint64_t library_tariff_counts(struct memory *m) { return timed_tariff_counts(TARIFF(m), 1 + COUNTS); }
static uint64_t c_tariff_counts(struct memory *m) { return plain_tariff_counts(TARIFF(m), COUNTS); }
static uint64_t library_tariff_clocks(struct memory *m) { return timed_tariff_clocks(TARIFF(m), 1 + CLOCKS, HALF_HOUR); }
static uint64_t c_tariff_clocks(struct memory *m) { return plain_tariff_clocks(TARIFF(m), CLOCKS, HALF_HOUR); }
static uint64_t library_tariff_century(struct memory *m) { return timed_tariff_clocks(TARIFF(m), 1 + 1, CENTURY); }
static uint64_t c_tariff_century(struct memory *m) { return plain_tariff_clocks(TARIFF(m), 1, CENTURY); }
static uint64_t library_loads(struct memory *m) { return timed_tariff_loads(TARIFF(m), LOADS); }
static uint64_t c_loads(struct memory *m) { return plain_tariff_loads(TARIFF(m), LOADS); }

/* A job, how often it does what it is named for, how many rounds of it there are, and what it must answer, in which the answer number COP6_DONE is. */
static const struct {
    const char *name;
    void (*before)(struct memory *);
    uint64_t (*library)(struct memory *), (*c)(struct memory *);
    uint64_t times, rounds, answer;
} jobs[] = {
    {"read a block of " FIGURES(COP6_MOST_DAYS) " days", nothing, library_read, c_read, 1, 400, DAYS},
    {"file it in an empty ledger", empty_ledger, library_file, c_file, 1, 400, COP6_HALVES * (DAYS - 1) + ENDED},
    {"file it again", nothing, library_file, c_file, 1, 400, 0},
    {"summary of a day", nothing, library_summary, c_summary, 1, 400, 0},
    {"a Count", nothing, library_counts, c_counts, COUNTS, 100, (uint64_t)COUNTS * TIMED_PULSE},
    {"a Clock over one boundary", nothing, library_clocks, c_clocks, CLOCKS, 100, (uint64_t)CLOCKS * HALF_HOUR},
    {"a Clock over a year", nothing, library_years, c_years, YEARS, 20, (uint64_t)YEARS * YEAR},
    {"a Clock over a century", nothing, library_century, c_century, 1, 20, CENTURY},
    {"Off, and On after a year", nothing, library_outages, c_outages, YEARS, 20, (uint64_t)YEARS * YEAR},
    {"Off, and On after a century", nothing, library_long_outage, c_long_outage, 1, 20, CENTURY},
    {"a read of " FIGURES(TIMED_DAYS) " days", nothing, library_reads, c_reads, READS, 50, (uint64_t)READS * READ},
    {"a read of " FIGURES(TIMED_DAYS) " days to 2099-12-31", nothing, library_last_reads, c_last_reads, READS, 50, (uint64_t)READS * READ},
    {"a Count with a table", nothing, library_tariff_counts, c_tariff_counts, COUNTS, 100, (uint64_t)COUNTS * TIMED_PULSE},
    {"a Clock over one boundary with a table", nothing, library_tariff_clocks, c_tariff_clocks, CLOCKS, 100, (uint64_t)CLOCKS * HALF_HOUR},
    {"a Clock over a century with a table", nothing, library_tariff_century, c_tariff_century, 1, 20, CENTURY},
    {"a load of a full table", nothing, library_loads, c_loads, LOADS, 100, FIRST_RATE},
};

static uint64_t once(void (*before)(struct memory *), uint64_t (*job)(struct memory *), struct memory *m, uint64_t *answer) {
    before(m);
    uint64_t began = nanoseconds();
    *answer = job(m);
    return nanoseconds() - began;
}

/* One of so many nanoseconds in all: a short one with its tenths. */
static void print_one(uint64_t all, uint64_t times) {
    double one = (double)all / (double)times;
    printf("%.*f | ", one < 100 ? 1 : 0, one);
}

int main(void) {
    uint64_t seed = SEED;
    block_length = sample_block(block, DAYS, DAY, ENDED, 1);
    sample_table(offered, SAMPLE_SWITCHINGS, SAMPLE_EXCEPTIONS, SAMPLE_WEEKDAYS, &seed);
    if (COP6_ANSWER(cop6_open(fresh, LEDGER, (const uint8_t *)SAMPLE_METER, COP6_IDENTIFIER, DAY - DAYS + 1, DAYS)) != COP6_DONE)
        return 1;
    printf("| Job | Library, ns | Plain C, ns | Ratio |\n|---|---|---|---|\n");
    for (size_t i = 0; i < sizeof jobs / sizeof *jobs; i++) {
        uint64_t library = UINT64_MAX, c = UINT64_MAX, answer, c_answer;
        for (uint64_t round = 0; round < jobs[i].rounds; round++) {
            uint64_t t = once(jobs[i].before, jobs[i].library, &ours, &answer);
            library = t < library ? t : library;
            t = once(jobs[i].before, jobs[i].c, &theirs, &c_answer);
            c = t < c ? t : c;
            if (answer != jobs[i].answer || c_answer != answer || memcmp(&ours, &theirs, sizeof ours) != 0) {
                printf("%s: answers %" PRIx64 " and %" PRIx64 ", or other bytes\n", jobs[i].name, answer, c_answer);
                return 1;
            }
        }
        printf("| %s | ", jobs[i].name);
        print_one(library, jobs[i].times);
        print_one(c, jobs[i].times);
        printf("%.2f |\n", (double)library / (double)c);
    }
    return 0;
}
