/* The board of stairs: a micro:bit (nRF51, Cortex-M0) with a LED between pins 13 and 4 and the button A at pin 17. A tick is 100 ms. */
#include "stairs.c"

#define REGISTER(address) (*(volatile uint32_t *)(address))
#define GPIO(offset) REGISTER(0x50000000u + (offset))
#define TIMER(offset) REGISTER(0x40008000u + (offset))

enum { LED_ROW = 13, LED_COLUMN = 4, BUTTON = 17 };
enum { OUTSET = 0x508, OUTCLR = 0x50c, IN = 0x510, DIRSET = 0x518, PIN_CNF = 0x700 };
enum { START = 0x000, COMPARE = 0x140, SHORTS = 0x200, BITMODE = 0x508, PRESCALER = 0x510, CC = 0x540 };

bool stairs_read_button(bool *value)
{
    *value = (GPIO(IN) >> BUTTON & 1u) == 0;
    return true;
}

/* Of two lights the dim one is lit in every eighth period of the loop below. */
static T_Light light;

void stairs_write_light(T_Light value)
{
    light = value;
}

static void show_light(uint32_t period)
{
    if (light == C_Bright || (light == C_Dim && period % 8 == 0)) {
        GPIO(OUTSET) = 1u << LED_ROW;
    } else {
        GPIO(OUTCLR) = 1u << LED_ROW;
    }
}

static void start_board(void)
{
    GPIO(DIRSET) = 1u << LED_ROW | 1u << LED_COLUMN;
    GPIO(OUTCLR) = 1u << LED_COLUMN;
    GPIO(PIN_CNF + 4 * BUTTON) = 0; /* an input */
    TIMER(BITMODE) = 3;             /* 32 bits */
    TIMER(PRESCALER) = 4;           /* 16 MHz / 2^4: a period is 1 us */
    TIMER(CC) = 1000;               /* a millisecond */
    TIMER(SHORTS) = 1;              /* then from 0 again */
    TIMER(START) = 1;
}

static void run(void)
{
    uint32_t millisecond = 0;
    stairs_init();
    start_board();
    for (;;) {
        while (TIMER(COMPARE) == 0) {
        }
        TIMER(COMPARE) = 0;
        show_light(millisecond);
        if (++millisecond % 100 == 0) {
            stairs_step();
        }
    }
}

/* The processor begins here: all memory that has to be 0 is made so. */
extern uint32_t bss_begins[], bss_ends[], stack_begins[];

static void start(void)
{
    for (uint32_t *at = bss_begins; at < bss_ends; at++) {
        *at = 0;
    }
    run();
}

__attribute__((section(".vectors"), used)) static const void *const vectors[] = {stack_begins, (const void *)start};
