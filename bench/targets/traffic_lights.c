/* A crossing: lights for cars and for walkers, a button, and a timer. */
#include <stdbool.h>
#include <stdint.h>

typedef uint8_t T_Light;
enum { C_Red, C_Amber, C_Green };

bool traffic_lights_read_button(bool *pressed);
void traffic_lights_write_cars(T_Light light);
void traffic_lights_write_walkers(T_Light light);
void traffic_lights_init(void);
void traffic_lights_step(void);

enum { GO, STOPPING, WALKING, STARTING };
static const uint8_t lasts[] = {12, 3, 8, 2};

static uint8_t phase, left;
static bool waits;

void traffic_lights_init(void)
{
    phase = GO;
    left = 12;
    waits = false;
}

void traffic_lights_step(void)
{
    bool pressed;
    if (!traffic_lights_read_button(&pressed))
        return;
    /* Who presses while walkers have green is served already. */
    waits = phase != WALKING && (waits || pressed);
    if (left > 0) {
        left--;
    } else if (phase != GO || waits) {
        phase = (phase + 1) & 3;
        left = lasts[phase] - 1;
    }
    traffic_lights_write_cars(phase == GO ? C_Green : phase == WALKING ? C_Red : C_Amber);
    traffic_lights_write_walkers(phase == WALKING ? C_Green : C_Red);
}
