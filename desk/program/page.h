/* The page of a ledger: one self-contained HTML document with a picture of the window, for a browser or for paper. */
#ifndef PAGE_H
#define PAGE_H

#include "table.h"

#include <stddef.h>
#include <stdint.h>

/* Writes the page of a good ledger to standard output, with a table's week where there is one; 0. Of a ledger that the library refuses it writes nothing; 1. */
int write_page(const uint8_t *ledger, size_t length, const struct week *week);

#endif
