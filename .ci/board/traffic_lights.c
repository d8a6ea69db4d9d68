#include "board.h"

#define VALUE value
INPUT(traffic_lights, button, bool)
OUTPUT(traffic_lights, cars, T_Light, (T_Light value))
OUTPUT(traffic_lights, walkers, T_Light, (T_Light value))

static void say_light(T_Light light)
{
    say(light == C_Red ? "Red" : light == C_Amber ? "Amber" : "Green");
}

static void tell(void)
{
    TELL(cars, "cars", say_light(cars_value))
    TELL(walkers, "walkers", say_light(walkers_value))
}

BOARD(traffic_lights)
