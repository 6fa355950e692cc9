/* Bank 3: tiles and the background. */
#pragma bank 3
#include "../hardware.h"

static const uint8_t tiles[32] = {
    0, 0, 0, 0, 0, 0, 0, 0, 0, 0, 0, 0, 0, 0, 0, 0,
    0x3C, 0x3C, 0x7E, 0x42, 0xFF, 0x81, 0xFF, 0x81, 0xFF, 0x81, 0xFF, 0x81, 0x7E, 0x42, 0x3C, 0x3C,
};

void draw_field(void) __banked
{
    uint8_t i;
    uint16_t left;
    volatile uint8_t *at = MAP;
    for (i = 0; i != 32; i++)
        VRAM[i] = tiles[i];
    for (left = 1024; left != 0; left--)
        *at++ = 0;
}
