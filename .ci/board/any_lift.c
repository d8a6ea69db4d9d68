#include CONTROLLER

static volatile unsigned any;

static bool any_call(T_Call *value)
{
    value->tag = (uint8_t)(any % 2u);
    if (value->tag == C_To) {
        value->u.c_To.f0 = (uint8_t)(any & 7u);
    }
    return any % 2u == 0u;
}

bool lift_read_inside(T_Call *value)
{
    return any_call(value);
}

bool lift_read_outside(T_Call *value)
{
    return any_call(value);
}

void lift_write_floors(uint8_t value)
{
    any = value;
}

void lift_write_doors(T_Door value)
{
    any = value;
}

void any_run(void)
{
    lift_init();
    for (;;) {
        lift_step();
    }
}
