/* The checksum CRC-8 (polynomial x^8 + x^2 + x + 1) of messages, a bit a tick. */
#include <stdbool.h>
#include <stdint.h>

enum { C_Byte, C_End };
typedef struct {
    uint8_t tag;
    union {
        struct {
            uint8_t f0;
        } c_Byte;
    } u;
} T_Item;

bool crc8_read_items(T_Item *item);
void crc8_write_checks(uint8_t check);
void crc8_init(void);
void crc8_step(void);

static uint8_t byte, left; /* the bits that are still to be added, and how many these are */
static uint8_t sum;

void crc8_init(void)
{
    left = 0;
    sum = 0;
}

void crc8_step(void)
{
    if (left == 0) {
        T_Item item;
        if (!crc8_read_items(&item))
            return;
        if (item.tag == C_End) {
            crc8_write_checks(sum);
            sum = 0;
            return;
        }
        byte = item.u.c_Byte.f0;
        left = 8;
    }
    sum = (uint8_t)((sum << 1) ^ (((sum ^ byte) & 0x80) != 0 ? 0x07 : 0));
    byte = (uint8_t)(byte << 1);
    left--;
}
