/* Large local arrays, for a stack of 64 bytes. */
#include "hardware.h"

volatile uint8_t shown;

void vblank(void) __critical __interrupt(0) { }

static void show(uint8_t digit)
{
    uint8_t tiles[40];
    tiles[digit & 31] = digit;
    shown = tiles[0];
}

static void show_score(uint8_t score)
{
    uint8_t digits[40];
    digits[score & 31] = score;
    show(digits[0]);
}

void main(void)
{
    for (;;)
        show_score(DIV);
}
