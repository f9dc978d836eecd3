/* Reads a block from standard input and says what the reader answers. */
#include "cop6.h"
#include <stdio.h>

static uint8_t block[COP6_BLOCK_BYTES(COP6_MOST_DAYS) + 1];

int main(void) {
    uint64_t r = cop6_read(block, fread(block, 1, sizeof block, stdin));
    printf("answer %u carries %u\n", COP6_ANSWER(r), COP6_CARRIED(r));
    return COP6_ANSWER(r) != COP6_DONE;
}
