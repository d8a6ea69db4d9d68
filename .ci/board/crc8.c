#include "board.h"

#define VALUE value
INPUT(crc8, items, T_Item)
OUTPUT(crc8, checks, uint8_t, (uint8_t value))

static void tell(void)
{
    TELL(checks, "std_out", say_number(checks_value))
}

BOARD(crc8)
