#include CONTROLLER

static volatile unsigned any;

bool traffic_lights_read_button(bool *value)
{
    *value = any % 2u == 0u;
    return any % 2u == 0u;
}

void traffic_lights_write_cars(T_Light value)
{
    any = value;
}

void traffic_lights_write_walkers(T_Light value)
{
    any = value;
}

void any_run(void)
{
    traffic_lights_init();
    for (;;) {
        traffic_lights_step();
    }
}
