/* A machine that sells drinks. */
#include <stdbool.h>
#include <stdint.h>

enum { C_Coin, C_Choose, C_Cancel };
typedef struct {
    uint8_t tag;
    union {
        struct {
            uint8_t f0;
        } c_Coin, c_Choose;
    } u;
} T_Act;
typedef uint8_t T_Drink;
enum { C_Tea, C_Coffee, C_Soup };
enum { C_Credit, C_Enjoy, C_Lacking, C_Strange, C_Unknown, C_Back };
typedef struct {
    uint8_t tag;
    union {
        struct {
            uint16_t f0;
        } c_Credit, c_Enjoy, c_Lacking, c_Back;
        struct {
            uint8_t f0;
        } c_Strange, c_Unknown;
    } u;
} T_Told;

bool vending_machine_read_acts(T_Act *act);
void vending_machine_write_tray(T_Drink drink);
void vending_machine_write_display(const T_Told *told);
void vending_machine_init(void);
void vending_machine_step(void);

static const uint8_t prices[] = {120, 150, 200};
static uint16_t credit;

void vending_machine_init(void)
{
    credit = 0;
}

static void take_coin(uint8_t cents, T_Told *told)
{
    if (cents == 10 || cents == 20 || cents == 50 || cents == 100) {
        credit = (uint16_t)(credit + cents);
        told->tag = C_Credit;
        told->u.c_Credit.f0 = credit;
    } else {
        told->tag = C_Strange;
        told->u.c_Strange.f0 = cents;
    }
}

static void sell(uint8_t number, T_Told *told)
{
    if (number < 1 || number > 3) {
        told->tag = C_Unknown;
        told->u.c_Unknown.f0 = number;
    } else if (credit < prices[number - 1]) {
        told->tag = C_Lacking;
        told->u.c_Lacking.f0 = prices[number - 1] - credit;
    } else {
        vending_machine_write_tray(number - 1);
        told->tag = C_Enjoy;
        told->u.c_Enjoy.f0 = credit - prices[number - 1];
        credit = 0;
    }
}

void vending_machine_step(void)
{
    T_Act act;
    T_Told told;
    if (!vending_machine_read_acts(&act))
        return;
    switch (act.tag) {
    case C_Coin:
        take_coin(act.u.c_Coin.f0, &told);
        break;
    case C_Choose:
        sell(act.u.c_Choose.f0, &told);
        break;
    default:
        told.tag = C_Back;
        told.u.c_Back.f0 = credit;
        credit = 0;
        break;
    }
    vending_machine_write_display(&told);
}
