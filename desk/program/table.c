/* What a tariff switching table has for a week. What it means is the library's to say. */
#include "table.h"

#include "commands.h"
#include "dates.h"
#include "files.h"
#include "say.h"

#include <inttypes.h>
#include <stdio.h>
#include <stdlib.h>

/* Says what the library refuses: it is asked of the table alone, of which a day past the last week is no fault. */
static int refused_week(const char *name, const struct bytes *table, uint32_t day, uint64_t r) {
    uint64_t alone = cop6_table_judge(table->at, table->length);
    if (COP6_ANSWER(r) == COP6_CLASH)
        return refused_for(name, COP6_CLASH, "two entries of the table clash: of one rank on the same day, or of one day type at the same minute");
    if (table->length != COP6_TABLE_BYTES)
        return refused_for(name, COP6_ANSWER(r), "not a table's length, which is %d bytes", COP6_TABLE_BYTES);
    if (COP6_ANSWER(alone) == COP6_RANGE)
        return refused_for(name, COP6_RANGE, "the table has a value out of range, too many entries, no default, or a day type without a rate from 00:00");
    return refused_for(name, COP6_ANSWER(r), "%d days from %06" PRIu32 " on would end after 991231", WEEK_DAYS, cop6_date(day));
}

int read_week(const char *path, uint32_t day, struct week *w) {
    struct bytes table;
    struct stat of;
    int status = read_file(path, COP6_TABLE_BYTES, &table, &of);
    if (status != DONE)
        return status;
    uint64_t r = cop6_table_week(table.at, table.length, day, (uint8_t *)w->text, COP6_WEEK_BYTES);
    if (COP6_ANSWER(r) != COP6_DONE)
        status = refused_week(name_of(path), &table, day, r);
    w->day = day;
    w->length = COP6_CARRIED(r);
    w->text[w->length] = '\0';
    free(table.at);
    return status;
}

int week_command(char **args, int count) {
    struct week w;
    uint32_t day;
    (void)count;
    int status = date(args[1], &day);
    if (status == DONE)
        status = read_week(args[0], day, &w);
    if (status == DONE)
        fwrite(w.text, 1, w.length, stdout);
    return status;
}
