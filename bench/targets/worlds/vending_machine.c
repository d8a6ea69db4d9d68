#include "world.h"

static uint32_t number_of(const T_Told *told)
{
    switch (told->tag) {
    case C_Credit:
        return told->u.c_Credit.f0;
    case C_Enjoy:
        return 100000u + told->u.c_Enjoy.f0;
    case C_Lacking:
        return 200000u + told->u.c_Lacking.f0;
    case C_Strange:
        return 300000u + told->u.c_Strange.f0;
    case C_Unknown:
        return 400000u + told->u.c_Unknown.f0;
    default:
        return 500000u + told->u.c_Back.f0;
    }
}

INPUT(vending_machine, acts, T_Act)
OUTPUT(vending_machine, tray, T_Drink, value)
OUTPUT(vending_machine, display, const T_Told *, number_of(value))
WORLD(vending_machine)
