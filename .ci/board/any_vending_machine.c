#include CONTROLLER

static volatile unsigned any;

bool vending_machine_read_acts(T_Act *value)
{
    value->tag = (uint8_t)(any % 3u);
    if (value->tag == C_Coin) {
        value->u.c_Coin.f0 = (uint8_t)(any & 255u);
    } else if (value->tag == C_Choose) {
        value->u.c_Choose.f0 = (uint8_t)(any & 255u);
    }
    return any % 2u == 0u;
}

void vending_machine_write_tray(T_Drink value)
{
    any = value;
}

void vending_machine_write_display(const T_Told *value)
{
    switch (value->tag) {
    case C_Credit:
        any = value->u.c_Credit.f0;
        break;
    case C_Enjoy:
        any = value->u.c_Enjoy.f0;
        break;
    case C_Lacking:
        any = value->u.c_Lacking.f0;
        break;
    case C_Strange:
        any = value->u.c_Strange.f0;
        break;
    case C_Unknown:
        any = value->u.c_Unknown.f0;
        break;
    default:
        any = value->u.c_Back.f0;
        break;
    }
}

void any_run(void)
{
    vending_machine_init();
    for (;;) {
        vending_machine_step();
    }
}
