/* A switch that bounces: its level changes when four samples in a row say so, and each change is told with its tick. */
#include <stdbool.h>
#include <stdint.h>

enum { C_Rise, C_Fall };
typedef struct {
    uint8_t tag;
    union {
        struct {
            uint16_t f0;
        } c_Rise, c_Fall;
    } u;
} T_Edge;

bool debouncer_read_samples(bool *sample);
void debouncer_write_changes(const T_Edge *edge);
void debouncer_init(void);
void debouncer_step(void);

static bool level;
static uint8_t different; /* how many of the last samples were not the level */
static uint16_t tick;

void debouncer_init(void)
{
    level = false;
    different = 0;
    tick = 0;
}

static void tell(void)
{
    T_Edge edge;
    if (level) {
        edge.tag = C_Rise;
        edge.u.c_Rise.f0 = tick;
    } else {
        edge.tag = C_Fall;
        edge.u.c_Fall.f0 = tick;
    }
    debouncer_write_changes(&edge);
}

void debouncer_step(void)
{
    bool sample;
    if (!debouncer_read_samples(&sample))
        return;
    if (sample == level) {
        different = 0;
    } else if (++different == 4) {
        level = sample;
        different = 0;
        tell();
    }
    tick++;
}
