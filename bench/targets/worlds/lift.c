#include "world.h"

INPUT(lift, inside, T_Call)
INPUT(lift, outside, T_Call)
OUTPUT(lift, floors, uint8_t, value)
OUTPUT(lift, doors, T_Door, value)
WORLD(lift)
