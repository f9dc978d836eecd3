/* Reads markup that must be well-formed: elements balanced and nested, attributes quoted and unique, entities known, one root, UTF-8. */
#ifndef MARKUP_H
#define MARKUP_H

#include <stddef.h>

enum { MOST_ATTRIBUTES = 8 };

struct element {
    char name[12];
    const char *attribute[MOST_ATTRIBUTES], *value[MOST_ATTRIBUTES];
    size_t attributes;
    size_t text; /* where its text begins in all of the text */
};

/* An attribute's value, "" where the element has none. */
const char *value_of(const struct element *e, const char *attribute);

/* Reads a page of so many bytes and a byte 0 behind them, which it changes. `begins` sees each element at its first tag, `ends` at its last, with its
 * parent and all the text in it, entities as they stand. A page that is not well-formed ends the program with 1 and a line on standard error. */
void read_markup(char *page, size_t length, void (*begins)(const struct element *), void (*ends)(const struct element *, const struct element *, const char *));

#endif
