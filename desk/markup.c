/* A reader of markup that takes nothing but what it knows: no comments, no sections, no instructions, a doctype of HTML and elements. */
#include "markup.h"

#include <stdio.h>
#include <stdlib.h>
#include <string.h>

enum { DEEPEST = 16 };

static char *page, *text;
static size_t at, written, depth, roots;
static struct element open[DEEPEST + 1]; /* [0] stands for the document */

static void wrong(const char *what) {
    fprintf(stderr, "not well-formed at byte %zu: %s\n", at, what);
    exit(1);
}

static void check_utf8(const unsigned char *s, size_t length) {
    static const unsigned least[] = {0, 0x80, 0x800, 0x10000};
    for (at = 0; at < length;) {
        unsigned more = s[at] < 0x80 ? 0 : s[at] < 0xe0 ? 1 : s[at] < 0xf0 ? 2 : 3;
        unsigned c = more == 0 ? s[at] : s[at] & (0x3fu >> more);
        if ((s[at] >= 0x80 && s[at] < 0xc0) || s[at] >= 0xf8 || (s[at] < 0x20 && s[at] != '\n'))
            wrong("a byte that may not stand there");
        for (unsigned i = 1; i <= more; i++) {
            if ((s[at + i] & 0xc0) != 0x80)
                wrong("a character of UTF-8 cut short");
            c = c << 6 | (s[at + i] & 0x3f);
        }
        if (c < least[more] || c > 0x10ffff || (c >= 0xd800 && c < 0xe000))
            wrong("no character of UTF-8");
        at += 1 + more;
    }
    at = 0;
}

const char *value_of(const struct element *e, const char *attribute) {
    for (size_t i = 0; i < e->attributes; i++)
        if (strcmp(e->attribute[i], attribute) == 0)
            return e->value[i];
    return "";
}

/* Passes an entity that XML has of itself, or a numeric one. */
static void pass_entity(void) {
    static const char *const known[] = {"&amp;", "&lt;", "&gt;", "&quot;", "&apos;"};
    for (size_t i = 0; i < sizeof known / sizeof known[0]; i++)
        if (strncmp(page + at, known[i], strlen(known[i])) == 0) {
            at += strlen(known[i]);
            return;
        }
    size_t digits = strncmp(page + at, "&#", 2) == 0 ? strspn(page + at + 2, "0123456789") : 0;
    if (digits == 0 || page[at + 2 + digits] != ';')
        wrong("an unknown entity");
    at += 3 + digits;
}

static size_t name_length(void) {
    size_t n = strspn(page + at, "abcdefghijklmnopqrstuvwxyzABCDEFGHIJKLMNOPQRSTUVWXYZ0123456789-");
    if (n == 0 || !strchr("abcdefghijklmnopqrstuvwxyz", page[at]))
        wrong("no name");
    return n;
}

/* Reads ` name="value"`, and ends name and value with a byte 0 each. */
static void read_attribute(struct element *e) {
    at++;
    const char *name = page + at;
    at += name_length();
    if (strncmp(page + at, "=\"", 2) != 0)
        wrong("an attribute that is not quoted");
    page[at] = '\0';
    if (e->attributes == MOST_ATTRIBUTES)
        wrong("more attributes than an element may have here");
    for (size_t i = 0; i < e->attributes; i++)
        if (strcmp(e->attribute[i], name) == 0)
            wrong("an attribute that the element has twice");
    at += 2;
    e->attribute[e->attributes] = name;
    e->value[e->attributes++] = page + at;
    while (page[at] != '"') {
        if (page[at] == '\0' || page[at] == '<')
            wrong("a value that does not end");
        if (page[at] == '&')
            pass_entity();
        else
            at++;
    }
    page[at++] = '\0';
}

static void read_name(char name[sizeof open[0].name]) {
    size_t n = name_length();
    if (n >= sizeof open[0].name)
        wrong("a name that is too long");
    memcpy(name, page + at, n);
    name[n] = '\0';
    at += n;
}

/* ---- the three things that a page is made of */

static void (*begins)(const struct element *);
static void (*ends)(const struct element *, const struct element *, const char *);

static void end_element(void) {
    text[written] = '\0';
    ends(&open[depth], &open[depth - 1], text + open[depth].text);
    depth--;
}

static void read_text(void) {
    size_t from = at;
    if (page[at] == '&')
        pass_entity();
    else
        at++;
    if (depth == 0 && page[from] != '\n')
        wrong("text outside the root");
    memcpy(text + written, page + from, at - from);
    written += at - from;
}

static void read_end(void) {
    char name[sizeof open[0].name];
    at += 2;
    read_name(name);
    if (depth == 0 || strcmp(name, open[depth].name) != 0 || page[at++] != '>')
        wrong("an end without its beginning");
    end_element();
}

static void read_begin(void) {
    struct element *e = &open[depth + 1];
    at++;
    if (depth++ == DEEPEST)
        wrong("elements nested too deep");
    if (depth == 1 && ++roots > 1)
        wrong("a second root");
    e->attributes = 0;
    e->text = written;
    read_name(e->name);
    while (page[at] == ' ')
        read_attribute(e);
    int empty = page[at] == '/';
    at += (size_t)empty;
    if (page[at++] != '>')
        wrong("a tag that does not end");
    begins(e);
    if (empty)
        end_element();
}

void read_markup(char *given, size_t length, void (*on_begin)(const struct element *),
                 void (*on_end)(const struct element *, const struct element *, const char *)) {
    static const char doctype[] = "<!DOCTYPE html>\n";
    page = given;
    begins = on_begin;
    ends = on_end;
    text = malloc(length + 1);
    if (text == NULL)
        wrong("too long for the memory there is");
    check_utf8((const unsigned char *)page, length);
    if (strncmp(page, doctype, strlen(doctype)) != 0)
        wrong("no doctype of HTML");
    for (at = strlen(doctype); page[at] != '\0';)
        if (page[at] != '<')
            read_text();
        else if (page[at + 1] == '/')
            read_end();
        else
            read_begin();
    if (depth != 0 || roots != 1)
        wrong("an element that does not end, or none at all");
    free(text);
}
