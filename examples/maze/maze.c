/*
 * maze: a walker goes from room to room by the direction keys, and picks up the stones in them.
 *
 * Each state of the game is a function, and a table in ROM has them: the main loop calls by it. Rooms are numbered by rows, and
 * a room's number is an index of two arrays, one in ROM and one in RAM.
 */
#include "hardware.h"

#define COLUMNS 8
#define ROWS 8
#define NORTH 1
#define EAST 2
#define SOUTH 4
#define WEST 8

enum state { TITLE, PLAY, WON };

/* The ways out of each room. */
static const uint8_t ways[ROWS * COLUMNS] = {
    6, 10, 10, 10, 10, 10, 10, 12,
    5, 6, 10, 10, 10, 10, 12, 5,
    5, 5, 6, 10, 10, 12, 5, 5,
    5, 5, 5, 6, 12, 5, 5, 5,
    5, 5, 5, 3, 9, 5, 5, 5,
    5, 5, 3, 10, 10, 9, 5, 5,
    5, 3, 10, 10, 10, 10, 9, 5,
    3, 10, 10, 10, 14, 10, 10, 9,
};

uint8_t row;
uint8_t column;
uint8_t state;
uint8_t left;
uint8_t held;
uint8_t stones[ROWS * COLUMNS];
volatile uint8_t frames;

void vblank(void) __critical __interrupt(0)
{
    OAM[0] = 16 + 16 * row;
    OAM[1] = 8 + 16 * column;
    OAM[2] = 1;
    OAM[3] = 0;
    frames++;
}

uint8_t read_keys(void)
{
    uint8_t keys;
    P1 = 0x20;
    keys = P1;
    keys = P1;
    keys = ~keys & 0x0F;
    P1 = 0x10;
    keys |= (uint8_t)(~P1 << 4);
    P1 = 0x30;
    return keys;
}

uint8_t room(void)
{
    return row * COLUMNS + column;
}

void begin(void)
{
    uint8_t i;
    for (i = 0; i < ROWS * COLUMNS; i++)
        stones[i] = i & 1;
    left = 32;
    row = 0;
    column = 0;
}

void pick_up(void)
{
    uint8_t here = room();
    if (stones[here] != 0) {
        stones[here] = 0;
        left--;
    }
}

void walk(uint8_t way)
{
    if ((ways[room()] & way) == 0)
        return;
    switch (way) {
    case NORTH:
        if (row > 0)
            row--;
        break;
    case EAST:
        if (column < COLUMNS - 1)
            column++;
        break;
    case SOUTH:
        if (row < ROWS - 1)
            row++;
        break;
    case WEST:
        if (column > 0)
            column--;
        break;
    }
}

void title(uint8_t pressed)
{
    if (pressed & KEY_A) {
        begin();
        state = PLAY;
    }
}

void play(uint8_t pressed)
{
    if (pressed & KEY_UP)
        walk(NORTH);
    else if (pressed & KEY_RIGHT)
        walk(EAST);
    else if (pressed & KEY_DOWN)
        walk(SOUTH);
    else if (pressed & KEY_LEFT)
        walk(WEST);
    pick_up();
    if (left == 0)
        state = WON;
}

void won(uint8_t pressed)
{
    BGP = 0x1B;
    if (pressed & KEY_B) {
        BGP = 0xE4;
        state = TITLE;
    }
}

typedef void (*state_function)(uint8_t pressed);
const state_function functions[] = { title, play, won };

void lcd_off(void)
{
    while (LY != 144)
        ;
    LCDC = 0;
}

void fill(volatile uint8_t *at, uint8_t value, uint16_t count)
{
    while (count != 0) {
        *at++ = value;
        count--;
    }
}

void main(void)
{
    uint8_t keys;
    lcd_off();
    fill(VRAM, 0, 32);
    fill(VRAM + 16, 0xFF, 16);
    fill(MAP, 0, 1024);
    fill(OAM, 0, 160);
    state = TITLE;
    held = 0;
    SCX = 0;
    SCY = 0;
    BGP = 0xE4;
    OBP0 = 0xE4;
    LCDC = 0x93;
    IF = 0;
    IE = 0x01;
    __asm__("ei");
    for (;;) {
        while (frames == 0)
            __asm__("halt\nnop");
        frames = 0;
        keys = read_keys();
        if (state < 3)
            functions[state](keys & ~held);
        held = keys;
    }
}
