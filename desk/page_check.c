/* Holds a page against its ledger, and a table's week on it: page_check LEDGER [TABLE DATE] <PAGE. The page must be well-formed and fetch nothing, and it must
 * say and draw what the ledger holds, and the table's rates. Prints how many sayings it compared. */
#include "cop6.h"
#include "markup.h"
#include "page_due.h"

#include <stdio.h>
#include <stdlib.h>
#include <string.h>

static struct lines said, due;
static struct scale scale;

static void check_fetches_nothing(const char *page) {
    static const char *const never[] = {"<script", "http", "@import", "src=", "javascript"};
    for (size_t i = 0; i < sizeof never / sizeof never[0]; i++)
        if (strstr(page, never[i]) != NULL) {
            fprintf(stderr, "page_check: the page has %s\n", never[i]);
            exit(1);
        }
    for (const char *p = page; (p = strstr(p, "url(")) != NULL; p++)
        if (p[4] != '#')
            fail("a reference to something outside the page");
    for (const char *p = page; (p = strstr(p, "href=\"")) != NULL; p++)
        if (p[6] != '#')
            fail("a reference to something outside the page");
}

static void begins(const struct element *e) {
    for (size_t i = 0; i < e->attributes; i++)
        if (strncmp(e->attribute[i], "on", 2) == 0)
            fail("an element that does something");
    if (strcmp(value_of(e, "role"), "img") == 0)
        add(&said, "label %s", value_of(e, "aria-label"));
}

/* A shade's range, as "0.13 to 0.24", "0.13" or "0.97 and more". */
static void take_scale(const char *text) {
    unsigned low, low_part, high, high_part;
    int found = sscanf(text, "%u.%2u to %u.%2u", &low, &low_part, &high, &high_part);
    if (scale.shades == SHADES || found % 2 != 0 || found < 2)
        fail("a scale that can't be read");
    scale.low[scale.shades] = low * 100 + low_part;
    scale.high[scale.shades] = strstr(text, " and more") != NULL ? COP6_VALUE_ROUND - 1 : found == 4 ? high * 100 + high_part : scale.low[scale.shades];
    if (scale.low[scale.shades] != (scale.shades == 0 ? 1 : scale.high[scale.shades - 1] + 1) || scale.high[scale.shades] < scale.low[scale.shades])
        fail("a scale with a gap, or one that overlaps");
    scale.shades++;
}

static void ends(const struct element *e, const struct element *parent, const char *text) {
    const char *name = e->name, *class = value_of(e, "class"), *id = value_of(e, "id"), *x = value_of(e, "x");
    if (strcmp(name, "dd") == 0 || strcmp(id, "identifier") == 0)
        add(&said, "%s %s", id, text);
    else if (strcmp(name, "li") == 0 && strcmp(value_of(parent, "id"), "scale") == 0)
        take_scale(text);
    else if (strcmp(name, "li") == 0 && strcmp(value_of(parent, "class"), "stretches") == 0)
        add(&said, "stretch %s", text);
    else if (strcmp(name, "li") == 0 && strcmp(value_of(parent, "class"), "types") == 0)
        add(&said, "types %s", text);
    else if (strcmp(name, "th") == 0 && strcmp(value_of(e, "scope"), "row") == 0)
        add(&said, "row %s %s", value_of(parent, "class"), text);
    else if (strcmp(name, "caption") == 0 || strcmp(name, "g") == 0)
        add(&said, "%s %s", name, text);
    else if (strcmp(name, "text") == 0)
        add(&said, "hour %s %s", x, text);
    else if (strcmp(name, "rect") == 0 && strcmp(value_of(parent, "class"), "wide") == 0)
        add(&said, "swatch %s", class);
    else if (strcmp(name, "rect") == 0 && *x != '\0' && *id == '\0')
        add(&said, "rect %s %s %s %s", class, x, value_of(e, "width"), text);
    else if ((strcmp(name, "use") == 0 && *x != '\0') || strcmp(name, "a") == 0)
        add(&said, "%s %s %s", name, value_of(e, "href"), x);
    else if (strcmp(name, "td") == 0 && strcmp(class, "halves") != 0 && *class != '\0')
        add(&said, "%s %s", class, text);
}

/* Holds the two against each other line by line; how many lines they have. */
static unsigned compare(void) {
    const char *a = said.at, *b = due.at;
    unsigned lines = 0;
    for (; *a != '\0' || *b != '\0'; lines++) {
        int n = (int)strcspn(a, "\n"), m = (int)strcspn(b, "\n");
        if (n != m || strncmp(a, b, (size_t)n) != 0) {
            fprintf(stderr, "page_check: the page says '%.*s' where the ledger has '%.*s'\n", n, a, m, b);
            exit(1);
        }
        a += n + 1;
        b += m + 1;
    }
    return lines;
}

static size_t read_whole(const char *name, uint8_t *to, size_t room) {
    FILE *file = fopen(name, "rb");
    size_t length = file == NULL ? 0 : fread(to, 1, room, file);
    if (file == NULL || ferror(file) || fclose(file) != 0)
        fail("a file that can't be read");
    return length;
}

int main(int count, char **args) {
    static char page[MOST_BYTES];
    static uint8_t ledger[COP6_LEDGER_BYTES(COP6_MOST_DAYS) + 1], table[COP6_TABLE_BYTES + 1];
    struct tariff tariff = {table, 0, 0};
    if (count != 2 && count != 4)
        fail("wrong usage: page_check LEDGER [TABLE DATE] <PAGE");
    size_t length = read_whole(args[1], ledger, sizeof ledger), page_length = fread(page, 1, sizeof page - 1, stdin);
    if (ferror(stdin))
        fail("a page that can't be read");
    if (count == 4) {
        tariff.length = read_whole(args[2], table, sizeof table);
        tariff.day = cop6_day((uint32_t)atoi(args[3]));
    }
    check_fetches_nothing(page);
    read_markup(page, page_length, begins, ends);
    reckon(ledger, length, count == 4 ? &tariff : NULL, &scale, &due);
    printf("%u\n", compare());
    return 0;
}
