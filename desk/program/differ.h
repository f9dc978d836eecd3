/* What a block and the ledger have of the same half-hour, and differ in. */
#ifndef DIFFER_H
#define DIFFER_H

#include "files.h"

/* Says why a block is refused, and where it differs from the ledger, the first such place and what both have there. */
int refused_block(const char *name, uint64_t r, const struct bytes *ledger, const struct bytes *block);

/* Says that the block is the ledger. */
int refused_ledger(const char *name);

#endif
