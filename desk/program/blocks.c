/* What a block has: its listing, and its header in words. */
#include "commands.h"
#include "cop6.h"
#include "dates.h"
#include "files.h"
#include "say.h"

#include <inttypes.h>
#include <stdio.h>
#include <stdlib.h>

static int write_listing(const char *name, const struct bytes *block) {
    uint64_t r = cop6_read(block->at, block->length);
    if (COP6_ANSWER(r) != COP6_DONE)
        return refused(name, r);
    size_t room = COP6_LISTING_BYTES(COP6_CARRIED(r));
    uint8_t *text = malloc(room);
    if (text == NULL)
        return trouble_with(name);
    fwrite(text, 1, (size_t)cop6_listing(block->at, block->length, text, room), stdout);
    free(text);
    return DONE;
}

static void print_demand(const char *name, uint64_t hundredths) {
    printf("%s demand: %" PRIu64 ".%02" PRIu64 " kW\n", name, hundredths / 100, hundredths % 100);
}

static void print_days(uint32_t newest, uint64_t days) {
    printf("days: %" PRIu64, days);
    if (days > 0) {
        fputs(", from ", stdout);
        print_date(newest - (uint32_t)days + 1);
        fputs(" to ", stdout);
        print_date(newest);
    }
    putchar('\n');
}

static int write_header(const char *name, const struct bytes *block) {
    uint64_t head[COP6_HEADER];
    uint64_t r = cop6_header(block->at, block->length, head, COP6_HEADER);
    if (COP6_ANSWER(r) != COP6_DONE)
        return refused(name, r);
    uint64_t seconds = head[COP6_HEAD_TIME] % SECONDS_OF_DAY;
    uint32_t newest = (uint32_t)(head[COP6_HEAD_TIME] / SECONDS_OF_DAY);
    fputs("identifier: ", stdout);
    for (int i = 0; i < COP6_IDENTIFIER; i++)
        putchar((int)head[COP6_HEAD_IDENTIFIER + i]);
    fputs("\ntime of reading: ", stdout);
    print_date(newest);
    printf(" %02" PRIu64 ":%02" PRIu64 ":%02" PRIu64 " UTC\n", seconds / 3600, seconds / 60 % 60, seconds % 60);
    printf("kWh register: %" PRIu64 " kWh\n", head[COP6_HEAD_KWH]);
    print_demand("current", head[COP6_HEAD_CURRENT]);
    print_demand("previous", head[COP6_HEAD_PREVIOUS]);
    print_demand("cumulative", head[COP6_HEAD_CUMULATIVE]);
    fputs("last reset: ", stdout);
    if (head[COP6_HEAD_RESET] == 0)
        fputs("never", stdout);
    else
        print_date((uint32_t)head[COP6_HEAD_RESET] - 1);
    printf("\nreset count: %" PRIu64 "\n", head[COP6_HEAD_RESETS]);
    for (int i = 0; i < COP6_RATES; i++)
        printf("rate register %d: %" PRIu64 " kWh\n", i + 1, head[COP6_HEAD_RATES + i]);
    print_days(newest, head[COP6_HEAD_DAYS]);
    return DONE;
}

static int tell(const char *path, int (*write)(const char *, const struct bytes *)) {
    struct bytes block;
    struct stat of;
    int status = read_block(path, &block, &of);
    if (status != DONE)
        return status;
    status = write(name_of(path), &block);
    free(block.at);
    return status;
}

int list_command(char **args, int count) {
    (void)count;
    return tell(args[0], write_listing);
}

int block_command(char **args, int count) {
    (void)count;
    return tell(args[0], write_header);
}
