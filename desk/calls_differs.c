/* What cop6_differs tells, with cases reckoned by hand, and what it is refused with. */
#include "calls.h"

#include <string.h>

/* The block differs from the ledger in this first, or in nothing where the day is 0: filing it is refused with COP6_DIFFERS or done. Neither call
 * changes the ledger, nor what is past the numbers of a difference. */
static void is_first(int line, uint64_t day, uint64_t part, uint64_t held, uint64_t sent) {
    memset(numbers, CLEAR, sizeof numbers);
    memcpy(ledger_before, ledger, sizeof ledger);
    IS(cop6_differs(ledger, sizeof ledger, block, block_length, numbers, COP6_DIFFERENCE - 1), ANSWER(COP6_SHORT, COP6_DIFFERENCE));
    IS(clear(numbers, sizeof numbers), 1);
    is(__FILE__, line, "the answer", cop6_differs(ledger, sizeof ledger, block, block_length, numbers, NUMBERS), ANSWER(COP6_DONE, day != 0));
    is(__FILE__, line, "the day", numbers[COP6_DIFFERS_DAY], day);
    is(__FILE__, line, "the part", numbers[COP6_DIFFERS_PART], part);
    is(__FILE__, line, "what is held", numbers[COP6_DIFFERS_HELD], held);
    is(__FILE__, line, "what is sent", numbers[COP6_DIFFERS_SENT], sent);
    IS(clear(numbers + COP6_DIFFERENCE, sizeof numbers - COP6_DIFFERENCE * sizeof *numbers), 1);
    IS(memcmp(ledger, ledger_before, sizeof ledger), 0);
    is(__FILE__, line, "filing's answer", COP6_ANSWER(cop6_file(ledger, sizeof ledger, block, block_length)), day != 0 ? COP6_DIFFERS : COP6_DONE);
    memcpy(ledger, ledger_before, sizeof ledger);
}

#define FIRST(day, part, held, sent) is_first(__LINE__, day, part, held, sent)
#define NOTHING() is_first(__LINE__, 0, 0, 0, 0)

void differs(void) {
    open_ledger();
    one_day("240229011000");
    NOTHING();
    file_one_day();
    NOTHING();
    memcpy(RECORD(0) + RECORD_START, "00471101", START_DIGITS);
    FIRST(DAY, COP6_PART_START, 471100, 471101);
    RECORD(0)[RECORD_REVERSE] = 0x80;
    FIRST(DAY, COP6_PART_START, 471100, 471101);
    one_day("240229011000");
    record_of(0, "24022900471100", "1150", "1231");
    FIRST(DAY, COP6_PART_HALF + 1, 1230, 1231);
    RECORD(0)[RECORD_REVERSE] = 0x80;
    FIRST(DAY, COP6_PART_HALF + 0, 1150, 1150 + (UINT64_C(1) << 32));
    one_day("240229011000");
    RECORD(0)[RECORD_LEVEL2] = 0x40;
    FIRST(DAY, COP6_PART_HALF + 1, 1230, 1230 + (UINT64_C(2) << 32));
    one_day("240229020500");
    RECORD(0)[RECORD_VALUE(2)] = '2';
    NOTHING();
    ledger[ROOM + ROOM_REVERSE] = ledger[ROOM + ROOM_LEVEL2] = 0x40;
    FIRST(DAY, COP6_PART_HALF + 1, 1230 + (UINT64_C(3) << 32), 1230);
}

/* Of whole days the flags too, the earliest day first; of a day of which one has but the start, the start. */
void differs_in_days(void) {
    open_ledger();
    two_days();
    IS(cop6_file(ledger, sizeof ledger, block, block_length), ANSWER(COP6_DONE, COP6_HALVES));
    NOTHING();
    RECORD(1)[RECORD_FLAGS] = COP6_FLAG_POWER;
    FIRST(DAY, COP6_PART_FLAGS, 0xa0, 0x80);
    RECORD(1)[RECORD_LEVEL2 + MARK_BYTES - 1] = 1;
    FIRST(DAY, COP6_PART_HALF + COP6_HALVES - 1, 1230, 1230 + (UINT64_C(2) << 32));
    two_days();
    memcpy(RECORD(1) + RECORD_VALUE(COP6_HALVES - 1), "1231", VALUE_DIGITS);
    record_of(0, "24030100471231", "1231", "1231");
    FIRST(DAY, COP6_PART_HALF + COP6_HALVES - 1, 1230, 1231);
    block_length = header_of(1, "240301001000");
    FIRST(DAY + 1, COP6_PART_START, 471230, 471231);
    one_day("240229011000");
    RECORD(0)[RECORD_FLAGS] = COP6_FLAG_METER;
    NOTHING();
}

/* Refused as filing is, in this order; the room is looked at last. */
void differs_refused(void) {
    file_one_day();
    memset(numbers, CLEAR, sizeof numbers);
    IS(cop6_differs(NULL, 0, NULL, 0, numbers, 0), ANSWER(COP6_LENGTH, 0));
    IS(cop6_differs(ledger, sizeof ledger - 1, block, block_length, numbers, NUMBERS), ANSWER(COP6_LENGTH, 0));
    IS(cop6_differs(ledger, sizeof ledger, block, COP6_BLOCK_BYTES(0) - 1, numbers, COP6_DIFFERENCE - 1), ANSWER(COP6_NO_BLOCK, 0));
    block[HEAD_TIME - 1] = '8';
    IS(cop6_differs(ledger, sizeof ledger, block, block_length, numbers, COP6_DIFFERENCE - 1), ANSWER(COP6_OTHER_METER, 0));
    RECORD(0)[RECORD_VALUE(1)] = 'x';
    IS(cop6_differs(ledger, sizeof ledger, block, block_length, numbers, COP6_DIFFERENCE - 1), ANSWER(COP6_FIELD, 131));
    one_day("240228011000");
    IS(cop6_differs(ledger, sizeof ledger, block, block_length, numbers, COP6_DIFFERENCE - 1), ANSWER(COP6_INCONSISTENT, 0));
    one_day("240229011000");
    IS(cop6_differs(ledger, sizeof ledger, block, block_length, NULL, 0), ANSWER(COP6_SHORT, COP6_DIFFERENCE));
    ledger[ROOM + ROOM_STATE] = COP6_HALVES + 2;
    IS(cop6_differs(ledger, sizeof ledger, block, COP6_BLOCK_BYTES(0) - 1, numbers, NUMBERS), ANSWER(COP6_DAMAGED, 0));
    IS(clear(numbers, sizeof numbers), 1);
}
