/* A function that calls itself. */
#include "hardware.h"

void vblank(void) __critical __interrupt(0) { }

static void fill(uint16_t at)
{
    at &= 1023;
    if (MAP[at] == 1)
        return;
    MAP[at] = 1;
    fill(at + 1);
    fill(at + 32);
}

void main(void)
{
    for (;;)
        fill(0);
}
