/*
 * A helper with three arguments, which passes the address of the third on: SDCC puts it on the stack, and the helper itself takes it off,
 * pops its return address and jumps there.
 */
#include "hardware.h"

uint8_t map[32 * 8];
volatile uint8_t frame_done;

void vblank(void) __critical __interrupt(0)
{
    frame_done = 1;
}

static void wait_for_frame(void)
{
    while (!frame_done) {
        __asm__("halt\nnop");
    }
    frame_done = 0;
}

static void put_tiles(uint8_t at, uint8_t count, const uint8_t *tiles)
{
    uint8_t i;
    for (i = 0; i < count; i++)
        map[(uint8_t)(at + i)] = tiles[i];
}

static void draw_cell(uint8_t x, uint8_t y, uint8_t tile)
{
    put_tiles((uint8_t)(y << 5) + x, 1, &tile);
}

void main(void)
{
    uint8_t y;
    IE = 1;
    __asm__("ei");
    while (1) {
        wait_for_frame();
        for (y = 0; y < 8; y++) {
            draw_cell(2, y, 1);
            draw_cell(17, y, DIV);
        }
        draw_cell(9, 4, 3);
    }
}
