#include "world.h"

INPUT(traffic_lights, button, bool)
OUTPUT(traffic_lights, cars, T_Light, value)
OUTPUT(traffic_lights, walkers, T_Light, value)
WORLD(traffic_lights)
