/*
 * A name with a start value, which the start-up copies to RAM with its 0. Its letters change, and each frame it is printed up to that 0.
 */
#include "hardware.h"

char name[4] = "AAA";
uint8_t cursor, keys, before;
volatile uint8_t frame_done;

void vblank(void) __critical __interrupt(0)
{
    frame_done = 1;
}

static void wait_for_frame(void)
{
    while (!frame_done) {
        __asm__("halt\nnop");
    }
    frame_done = 0;
}

static uint8_t read_keys(void)
{
    P1 = 0x20;
    return ~P1 & 0x0F;
}

static void print(const char *text)
{
    volatile uint8_t *to = MAP;
    while (*text)
        *to++ = *text++;
}

void main(void)
{
    uint8_t pressed;
    cursor = 0;
    before = 0;
    IE = 1;
    __asm__("ei");
    while (1) {
        wait_for_frame();
        keys = read_keys();
        pressed = keys & ~before;
        before = keys;
        if (pressed & KEY_UP) {
            name[cursor]++;
            if (name[cursor] > 'Z')
                name[cursor] = 'A';
        }
        if (pressed & KEY_RIGHT) {
            cursor++;
            if (cursor == 3)
                cursor = 0;
        }
        print(name);
    }
}
