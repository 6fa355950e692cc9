/*
 * catch: apples fall, and a basket that Left and Right move catches them.
 *
 * The main loop sleeps (HALT) until the VBlank handler has run, reads the keys, and moves basket and apple. The handler shows
 * both as objects: OAM is open in VBlank.
 */
#include "hardware.h"

#define BASKET_Y 144
#define LEFT_EDGE 8
#define RIGHT_EDGE 160
#define TOP_EDGE 16

static const uint8_t tiles[] = {
    /* nothing */
    0, 0, 0, 0, 0, 0, 0, 0, 0, 0, 0, 0, 0, 0, 0, 0,
    /* apple */
    0x08, 0x08, 0x10, 0x10, 0x3C, 0x3C, 0x7E, 0x7E, 0x7E, 0x7E, 0x7E, 0x7E, 0x3C, 0x3C, 0x18, 0x18,
    /* basket */
    0x00, 0x00, 0x81, 0x81, 0x81, 0x81, 0xFF, 0xFF, 0x7E, 0x7E, 0x7E, 0x7E, 0x3C, 0x3C, 0x00, 0x00,
};

uint8_t basket_x;
uint8_t apple_x;
uint8_t apple_y;
uint8_t seed;
uint8_t caught;
volatile uint8_t frame_done;

/* The VBlank interrupt: objects are shown where they are. */
void vblank(void) __critical __interrupt(0)
{
    OAM[0] = BASKET_Y;
    OAM[1] = basket_x;
    OAM[2] = 2;
    OAM[3] = 0;
    OAM[4] = apple_y;
    OAM[5] = apple_x;
    OAM[6] = 1;
    OAM[7] = 0;
    frame_done = 1;
}

uint8_t read_keys(void)
{
    uint8_t keys;
    P1 = 0x20;
    keys = P1;
    keys = P1;
    keys = ~keys & 0x0F;
    P1 = 0x30;
    return keys;
}

uint8_t next_random(void)
{
    seed = seed * 5 + 17;
    return seed;
}

void new_apple(void)
{
    uint8_t x = next_random();
    while (x < LEFT_EDGE || x > RIGHT_EDGE)
        x = next_random();
    apple_x = x;
    apple_y = TOP_EDGE;
}

uint8_t distance(uint8_t a, uint8_t b)
{
    if (a < b)
        return b - a;
    return a - b;
}

void move_basket(uint8_t keys)
{
    if ((keys & KEY_LEFT) && basket_x > LEFT_EDGE)
        basket_x -= 2;
    if ((keys & KEY_RIGHT) && basket_x < RIGHT_EDGE)
        basket_x += 2;
}

void fall(void)
{
    apple_y++;
    if (apple_y < BASKET_Y)
        return;
    if (distance(apple_x, basket_x) < 8 && caught < 9)
        caught++;
    new_apple();
}

/* `count` comes on the stack, and the callee takes it off. */
void copy(volatile uint8_t *to, const uint8_t *from, uint8_t count)
{
    while (count != 0) {
        *to++ = *from++;
        count--;
    }
}

void clear_map(void)
{
    volatile uint8_t *at = MAP;
    uint16_t left;
    for (left = 1024; left != 0; left--)
        *at++ = 0;
}

void clear_objects(void)
{
    uint8_t i;
    for (i = 0; i != 160; i++)
        OAM[i] = 0;
}

void lcd_off(void)
{
    while (LY != 144)
        ;
    LCDC = 0;
}

void main(void)
{
    lcd_off();
    copy(VRAM, tiles, sizeof tiles);
    clear_map();
    clear_objects();
    basket_x = 80;
    seed = DIV;
    caught = 0;
    new_apple();
    SCX = 0;
    SCY = 0;
    BGP = 0xE4;
    OBP0 = 0xE4;
    LCDC = 0x93;
    IF = 0;
    IE = 0x01;
    __asm__("ei");
    for (;;) {
        while (!frame_done)
            __asm__("halt\nnop");
        frame_done = 0;
        move_basket(read_keys());
        fall();
    }
}
