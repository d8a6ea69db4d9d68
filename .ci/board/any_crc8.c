#include CONTROLLER

static volatile unsigned any;

bool crc8_read_items(T_Item *value)
{
    value->tag = (uint8_t)(any % 2u);
    value->u.c_Byte.f0 = (uint8_t)(any & 255u);
    return any % 2u == 0u;
}

void crc8_write_checks(uint8_t value)
{
    any = value;
}

void any_run(void)
{
    crc8_init();
    for (;;) {
        crc8_step();
    }
}
