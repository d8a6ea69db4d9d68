/* The board of blink: an ATmega328 at 16 MHz with a LED at PB5 and a button that pulls PD2 down. A tick is 50 ms. */
#include <avr/interrupt.h>
#include <avr/io.h>
#include <avr/sleep.h>
#include "blink.c"

/* Ticks that have come and are not made yet. */
static volatile uint8_t waiting;

ISR(TIMER1_COMPA_vect)
{
    waiting++;
}

bool blink_read_button(bool *value)
{
    *value = (PIND & (1 << PD2)) == 0;
    return true;
}

void blink_write_led(bool value)
{
    if (value) {
        PORTB |= 1 << PB5;
    } else {
        PORTB &= (uint8_t) ~(1 << PB5);
    }
}

static void start_board(void)
{
    DDRB = 1 << PB5;
    PORTD = 1 << PD2; /* a resistor holds the button's pin up */
    OCR1A = 12499;    /* 12,500 periods of 4 us */
    TCCR1B = 1 << WGM12 | 1 << CS11 | 1 << CS10;
    TIMSK1 = 1 << OCIE1A;
    sei();
}

int main(void)
{
    blink_init();
    start_board();
    for (;;) {
        while (waiting == 0) {
            sleep_mode();
        }
        cli();
        waiting--;
        sei();
        blink_step();
    }
}
