/* Every message is one line on standard error: the program, what it is about, and what is wrong with it. */
#include "say.h"

#include "cop6.h"

#include <errno.h>
#include <inttypes.h>
#include <stdarg.h>
#include <stdio.h>
#include <string.h>

int worse(int a, int b) { return a < b ? b : a; }

int trouble(const char *format, ...) {
    va_list args;
    va_start(args, format);
    fputs("desk: ", stderr);
    vfprintf(stderr, format, args);
    fputc('\n', stderr);
    va_end(args);
    return TROUBLE;
}

int trouble_with(const char *name) { return trouble("%s: %s", name, strerror(errno)); }

static const char *meaning(uint32_t answer) {
    switch (answer) {
    case COP6_LENGTH: return "not a ledger's length";
    case COP6_DAMAGED: return "the ledger is damaged";
    case COP6_NO_BLOCK: return "not a block: its length or version is wrong";
    case COP6_INCONSISTENT: return "its fields do not go together";
    case COP6_OTHER_METER: return "a block of another meter: the last nine characters of its identifier are not the ledger's";
    default: return "not an answer that was to be expected";
    }
}

int refused_for(const char *name, uint32_t answer, const char *format, ...) {
    va_list args;
    va_start(args, format);
    fprintf(stderr, "desk: %s: refused with %" PRIu32 ": ", name, answer);
    vfprintf(stderr, format, args);
    fputc('\n', stderr);
    va_end(args);
    return REFUSED;
}

int refused(const char *name, uint64_t r) {
    if (COP6_ANSWER(r) == COP6_FIELD)
        return refused_for(name, COP6_FIELD, "a field is wrong, the one at byte %" PRIu32, COP6_CARRIED(r));
    return refused_for(name, COP6_ANSWER(r), "%s", meaning(COP6_ANSWER(r)));
}

const char *plural(uint64_t n) { return n == 1 ? "" : "s"; }
