#include CONTROLLER

static volatile unsigned any;

static bool any_request(T_Request *value)
{
    value->tag = (uint8_t)(any % 3u);
    if (value->tag == C_Want) {
        value->u.c_Want.f0 = (uint8_t)(any & 255u);
    } else if (value->tag == C_Urgent) {
        value->u.c_Urgent.f0 = (uint8_t)(any & 255u);
    }
    return any % 2u == 0u;
}

bool arbiter_read_left(T_Request *value)
{
    return any_request(value);
}

bool arbiter_read_right(T_Request *value)
{
    return any_request(value);
}

void arbiter_write_grants(const T_Grant *value)
{
    any = value->tag == C_Left ? value->u.c_Left.f0 : value->u.c_Right.f0;
}

void any_run(void)
{
    arbiter_init();
    for (;;) {
        arbiter_step();
    }
}
