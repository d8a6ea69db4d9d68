#include "board.h"

#define VALUE value
INPUT(vending_machine, acts, T_Act)
OUTPUT(vending_machine, tray, T_Drink, (T_Drink value))
#undef VALUE
#define VALUE *value
OUTPUT(vending_machine, display, T_Told, (const T_Told *value))

static void say_with(const char *name, uint16_t number)
{
    say(name);
    say_number(number);
}

static void say_told(const T_Told *told)
{
    switch (told->tag) {
    case C_Credit:
        say_with("Credit ", told->u.c_Credit.f0);
        break;
    case C_Enjoy:
        say_with("Enjoy ", told->u.c_Enjoy.f0);
        break;
    case C_Lacking:
        say_with("Lacking ", told->u.c_Lacking.f0);
        break;
    case C_Strange:
        say_with("Strange ", told->u.c_Strange.f0);
        break;
    case C_Unknown:
        say_with("Unknown ", told->u.c_Unknown.f0);
        break;
    default:
        say_with("Back ", told->u.c_Back.f0);
        break;
    }
}

static void tell(void)
{
    TELL(tray, "tray", say(tray_value == C_Tea ? "Tea" : tray_value == C_Coffee ? "Coffee" : "Soup"))
    TELL(display, "display", say_told(&display_value))
}

BOARD(vending_machine)
