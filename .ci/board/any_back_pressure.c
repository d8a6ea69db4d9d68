#include CONTROLLER

static volatile unsigned any;

void back_pressure_write_made(uint16_t value)
{
    any = value;
}

void back_pressure_write_used(const Tuple1 *value)
{
    any = value->f0;
    any = value->f1;
}

void any_run(void)
{
    back_pressure_init();
    for (;;) {
        back_pressure_step();
    }
}
