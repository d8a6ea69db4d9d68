/* Two clients share one device, and are served in turn: the rule that was taken is tried last the next time. An urgent request drops
   what waits at the other side. */
#include <stdbool.h>
#include <stdint.h>

enum { C_Idle, C_Want, C_Urgent };
typedef struct {
    uint8_t tag;
    union {
        struct {
            uint8_t f0;
        } c_Want, c_Urgent;
    } u;
} T_Request;
enum { C_Left, C_Right };
typedef struct {
    uint8_t tag;
    union {
        struct {
            uint8_t f0;
        } c_Left, c_Right;
    } u;
} T_Grant;

bool arbiter_read_left(T_Request *request);
bool arbiter_read_right(T_Request *request);
void arbiter_write_grants(const T_Grant *grant);
void arbiter_init(void);
void arbiter_step(void);

/* The sides are 0 and 1. A rule is a side and the kind of request that it serves, twice the kind plus the side. */
enum { RULES = 6 };
static T_Request waiting[2];
static bool waits[2];
static uint8_t order[RULES];

void arbiter_init(void)
{
    static const uint8_t first[RULES] = {2 * C_Urgent, 2 * C_Urgent + 1, 2 * C_Idle, 2 * C_Idle + 1, 2 * C_Want, 2 * C_Want + 1};
    for (uint8_t i = 0; i < RULES; i++)
        order[i] = first[i];
    waits[0] = false;
    waits[1] = false;
}

static void serve(uint8_t side)
{
    const T_Request *request = &waiting[side];
    waits[side] = false;
    if (request->tag == C_Urgent)
        waits[1 - side] = false;
    if (request->tag != C_Idle) {
        const uint8_t number = request->tag == C_Urgent ? request->u.c_Urgent.f0 : request->u.c_Want.f0;
        T_Grant grant;
        if (side == 0) {
            grant.tag = C_Left;
            grant.u.c_Left.f0 = number;
        } else {
            grant.tag = C_Right;
            grant.u.c_Right.f0 = number;
        }
        arbiter_write_grants(&grant);
    }
}

void arbiter_step(void)
{
    if (!waits[0])
        waits[0] = arbiter_read_left(&waiting[0]);
    if (!waits[1])
        waits[1] = arbiter_read_right(&waiting[1]);
    for (uint8_t i = 0; i < RULES; i++) {
        const uint8_t rule = order[i], side = rule & 1;
        if (waits[side] && waiting[side].tag == rule >> 1) {
            for (; i < RULES - 1; i++)
                order[i] = order[i + 1];
            order[RULES - 1] = rule;
            serve(side);
            return;
        }
    }
}
