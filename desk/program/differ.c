/* The library names the first difference; here it is put in words, for a refusal and for the command that asks. */
#include "differ.h"

#include "commands.h"
#include "cop6.h"
#include "say.h"

#include <inttypes.h>
#include <stdio.h>
#include <stdlib.h>

enum { WORDS = 64, TEXT = 240 };

static const char *half_words(uint64_t half, int with_marks, char *words) {
    snprintf(words, WORDS, "%04" PRIu32 "%s%s", COP6_HALF_VALUE(half), with_marks && COP6_HALF_REVERSE(half) ? ", reverse" : "",
             with_marks && COP6_HALF_LEVEL2(half) ? ", Level 2" : "");
    return words;
}

static const char *flag_words(uint64_t flags, char *words) {
    static const struct {
        uint64_t flag;
        const char *word;
    } known[] = {{COP6_FLAG_POWER, "power lost"}, {COP6_FLAG_METER, "meter changed"}, {COP6_FLAG_RESET, "demand reset"}};
    int length = snprintf(words, WORDS, "0x%02" PRIx64 " (", flags), first = length;
    for (size_t i = 0; i < sizeof known / sizeof known[0]; i++)
        if (flags & known[i].flag)
            length += snprintf(words + length, (size_t)(WORDS - length), "%s%s", length > first ? ", " : "", known[i].word);
    snprintf(words + length, (size_t)(WORDS - length), "%s", length > first ? ")" : "none)");
    return words;
}

/* The difference as text: where it is, what the ledger has, and what the block. */
static const char *difference(const uint64_t *d, char *text) {
    char held[WORDS], sent[WORDS];
    uint32_t date = cop6_date((uint32_t)d[COP6_DIFFERS_DAY]), part = (uint32_t)d[COP6_DIFFERS_PART];
    uint64_t a = d[COP6_DIFFERS_HELD], b = d[COP6_DIFFERS_SENT];
    if (part == COP6_PART_START) {
        snprintf(text, TEXT, "%06" PRIu32 ": the ledger has start reading %08" PRIu64 ", the block %08" PRIu64, date, a, b);
    } else if (part == COP6_PART_FLAGS) {
        snprintf(text, TEXT, "%06" PRIu32 ": the ledger has flags %s, the block %s", date, flag_words(a, held), flag_words(b, sent));
    } else {
        int marks = COP6_HALF_REVERSE(a) != COP6_HALF_REVERSE(b) || COP6_HALF_LEVEL2(a) != COP6_HALF_LEVEL2(b);
        uint32_t j = part - COP6_PART_HALF;
        snprintf(text, TEXT, "%06" PRIu32 " %02" PRIu32 ":%02" PRIu32 " to %02" PRIu32 ":%02" PRIu32 ": the ledger has value %s, the block %s", date, j / 2,
                 j % 2 * 30, (j + 1) / 2, (j + 1) % 2 * 30, half_words(a, marks, held), half_words(b, marks, sent));
    }
    return text;
}

int refused_block(const char *name, uint64_t r, const struct bytes *ledger, const struct bytes *block) {
    uint64_t d[COP6_DIFFERENCE];
    char text[TEXT];
    if (COP6_ANSWER(r) != COP6_DIFFERS)
        return refused(name, r);
    uint64_t found = cop6_differs(ledger->at, ledger->length, block->at, block->length, d, COP6_DIFFERENCE);
    if (COP6_ANSWER(found) != COP6_DONE || COP6_CARRIED(found) == 0)
        return refused_for(name, COP6_DIFFERS, "it differs from what the ledger holds");
    return refused_for(name, COP6_DIFFERS, "it differs from what the ledger holds: %s", difference(d, text));
}

int refused_ledger(const char *name) { return refused_for(name, COP6_NO_BLOCK, "it is the ledger itself and not a block"); }

static int tell(const char *ledger_name, const struct bytes *ledger, const char *name, const struct bytes *block) {
    uint64_t d[COP6_DIFFERENCE];
    char text[TEXT];
    uint64_t r = cop6_differs(ledger->at, ledger->length, block->at, block->length, d, COP6_DIFFERENCE);
    if (COP6_ANSWER(r) != COP6_DONE)
        return refused(COP6_ANSWER(r) <= COP6_DAMAGED ? ledger_name : name, r);
    printf("%s: %s\n", name, COP6_CARRIED(r) == 0 ? "nothing differs" : difference(d, text));
    return COP6_CARRIED(r) == 0 ? DONE : REFUSED;
}

int differ_command(char **args, int count) {
    struct bytes ledger = {NULL, 0}, block = {NULL, 0};
    struct stat of_ledger, of_block;
    (void)count;
    int status = read_ledger(args[0], &ledger, &of_ledger);
    if (status == DONE)
        status = read_block(args[1], &block, &of_block);
    if (status == DONE)
        status = same_file(&of_ledger, &of_block) ? refused_ledger(name_of(args[1])) : tell(name_of(args[0]), &ledger, name_of(args[1]), &block);
    free(ledger.at);
    free(block.at);
    return status;
}
