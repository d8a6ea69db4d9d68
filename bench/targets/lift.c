/* A lift of five floors. It goes on in its direction while someone wants a floor that way, and turns round otherwise. A turn takes
   two ticks, as in the source: calls are collected in one, and the lift moves in the next. */
#include <stdbool.h>
#include <stdint.h>

enum { C_Idle, C_To };
typedef struct {
    uint8_t tag;
    union {
        struct {
            uint8_t f0;
        } c_To;
    } u;
} T_Call;
typedef uint8_t T_Door;
enum { C_Open, C_Shut };

bool lift_read_inside(T_Call *call);
bool lift_read_outside(T_Call *call);
void lift_write_floors(uint8_t floor);
void lift_write_doors(T_Door door);
void lift_init(void);
void lift_step(void);

static T_Call inside, outside;
static bool has_inside, has_outside;
static bool is_collected;
static uint8_t stops; /* bit N stands for floor N */
static uint8_t at;
static bool goes_up;

void lift_init(void)
{
    has_inside = false;
    has_outside = false;
    is_collected = false;
    stops = 0;
    at = 1;
    goes_up = true;
}

static void press(const T_Call *call)
{
    if (call->tag == C_To && call->u.c_To.f0 >= 1 && call->u.c_To.f0 <= 5)
        stops |= (uint8_t)(1u << call->u.c_To.f0);
}

static void collect(void)
{
    if (!has_inside)
        has_inside = lift_read_inside(&inside);
    if (!has_outside)
        has_outside = lift_read_outside(&outside);
    if (!has_inside || !has_outside)
        return;
    press(&inside);
    press(&outside);
    has_inside = false;
    has_outside = false;
    is_collected = true;
}

static void move(void)
{
    const uint8_t here = (uint8_t)(1u << at);
    is_collected = false;
    if ((stops & here) != 0) {
        stops &= (uint8_t)~here;
        lift_write_floors(at);
        lift_write_doors(C_Open);
        return;
    }
    if (stops != 0) {
        const bool above = stops > here;
        const bool below = (stops & (here - 1)) != 0;
        goes_up = goes_up ? above || !below : above && !below;
        at = goes_up ? at + 1 : at - 1;
    }
    lift_write_floors(at);
    lift_write_doors(C_Shut);
}

void lift_step(void)
{
    if (is_collected)
        move();
    else
        collect();
}
