/*
 * Bonuses that fall, in an array of structs that is gone through by a pointer up to the array's end, as `for (b = all; b < all + N; b++)`:
 * the first free one is taken, all are moved, and those that reach the bottom are freed.
 */
#include "hardware.h"

#define BONUSES 6

typedef struct {
    uint8_t x, y, kind, active;
} bonus_t;

bonus_t bonuses[BONUSES];
uint8_t caught;
volatile uint8_t frame_done;

void vblank(void) __critical __interrupt(0)
{
    frame_done = 1;
}

static void wait_for_frame(void)
{
    while (!frame_done) {
        __asm__("halt\nnop");
    }
    frame_done = 0;
}

static void add_bonus(uint8_t x, uint8_t y)
{
    bonus_t *b;
    for (b = bonuses; b < bonuses + BONUSES; b++) {
        if (!b->active) {
            b->x = x;
            b->y = y;
            b->active = 1;
            return;
        }
    }
}

static void move_bonuses(void)
{
    bonus_t *b;
    for (b = bonuses; b < bonuses + BONUSES; b++) {
        if (b->active) {
            b->y++;
            if (b->y == 144) {
                b->active = 0;
                caught++;
            }
        }
    }
}

void main(void)
{
    uint8_t frame = 0;
    IE = 1;
    __asm__("ei");
    while (1) {
        wait_for_frame();
        if ((++frame & 63) == 0)
            add_bonus(DIV, 3);
        move_bonuses();
    }
}
