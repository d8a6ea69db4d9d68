#include "world.h"

INPUT(crc8, items, T_Item)
OUTPUT(crc8, checks, uint8_t, value)
WORLD(crc8)
