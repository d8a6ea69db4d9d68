/* A board in simulation: its inputs come from arrays, and each value that goes out is written to the UART, as a line with the port and
   the value. The file CONTROLLER is the C file, VALUES_stream the values of
   an input, STEPS the number of supersteps. After the last one a line tells the cycles of a superstep: the mean and the most. */
#include <stdbool.h>
#include <stdint.h>
#include "values.h"
#include CONTROLLER

#ifdef __AVR__
#include <avr/interrupt.h>
#include <avr/io.h>
#include <avr/sleep.h>

static void start_board(void)
{
    UBRR0 = 0;
    UCSR0B = 1 << TXEN0;
    TCCR1B = 1 << CS10; /* a tick a cycle */
}

static void put(char c)
{
    while ((UCSR0A & (1 << UDRE0)) == 0) {
    }
    UDR0 = (uint8_t)c;
}

static void start_count(void)
{
    TCNT1 = 0;
}

static uint16_t count(void)
{
    return TCNT1;
}

/* With interrupts off a sleep ends the simulation. */
static void stop_board(void)
{
    cli();
    sleep_enable();
    sleep_cpu();
}
#else
/* The nRF51 of a micro:bit. What ends the simulation is a call of the host: SYS_EXIT. */
#define UART(at) (*(volatile uint32_t *)(0x40002000u + (at)))

static void start_board(void)
{
    UART(0x500) = 4; /* ENABLE */
    UART(0x008) = 1; /* STARTTX */
}

static void put(char c)
{
    UART(0x11c) = 0; /* TXDRDY */
    UART(0x51c) = (uint8_t)c;
    while (UART(0x11c) == 0) {
    }
}

static void start_count(void)
{
}

static uint16_t count(void)
{
    return 0;
}

static void stop_board(void)
{
    __asm volatile("movs r0, #0x18\n ldr r1, =0x20026\n bkpt 0xab" : : : "r0", "r1");
}
#endif

static void say(const char *text)
{
    while (*text != 0) {
        put(*text++);
    }
}

static void say_number(uint32_t number)
{
    char digits[10];
    uint8_t held = 0;
    do {
        digits[held++] = (char)('0' + number % 10);
        number /= 10;
    } while (number != 0);
    while (held > 0) {
        put(digits[--held]);
    }
}

#define INPUT(name, stream, type)                       \
    bool name##_read_##stream(type *value)              \
    {                                                   \
        static const type values[] = {VALUES_##stream}; \
        static uint8_t next;                            \
        if (next == sizeof values / sizeof values[0]) { \
            return false;                               \
        }                                               \
        *value = values[next++];                        \
        return true;                                    \
    }

/* What comes out is kept until the superstep is over: it alone is counted. */
#define OUTPUT(name, stream, type, given)               \
    static type stream##_value;                         \
    static bool stream##_is_there;                      \
    void name##_write_##stream given                    \
    {                                                   \
        stream##_value = VALUE;                         \
        stream##_is_there = true;                       \
    }

#define TELL(stream, port, tell)                        \
    if (stream##_is_there) {                            \
        say(port " ");                                  \
        tell;                                           \
        say("\n");                                      \
        stream##_is_there = false;                      \
    }

#define BOARD(name)                                     \
    static void run(void)                               \
    {                                                   \
        uint16_t most = 0;                              \
        uint32_t sum = 0;                               \
        uint16_t alone;                                 \
        start_board();                                  \
        start_count();                                  \
        alone = count();                                \
        name##_init();                                  \
        for (uint16_t i = 0; i < STEPS; i++) {          \
            uint16_t taken;                             \
            start_count();                              \
            name##_step();                              \
            taken = (uint16_t)(count() - alone);        \
            sum += taken;                               \
            most = taken > most ? taken : most;         \
            tell();                                     \
        }                                               \
        say("cycles ");                                 \
        say_number(sum / STEPS);                        \
        say(" ");                                       \
        say_number(most);                               \
        say("\n");                                      \
        stop_board();                                   \
    }                                                   \
    START

#ifdef __AVR__
#define START           \
    int main(void)      \
    {                   \
        run();          \
        return 0;       \
    }
#else
/* The first words of the memory: where the stack begins, and where the program does. */
#define START                                                                        \
    extern uint32_t stack_begins[];                                                  \
    __attribute__((section(".vectors"), used)) static const void *const vectors[] = {stack_begins, (const void *)run};
#endif
