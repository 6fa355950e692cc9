/* A function table without a bound on its index. */
#include "hardware.h"

uint8_t state;

static void play(void) { }
static void over(void) { }

static void (*const states[])(void) = { play, over };

void vblank(void) __critical __interrupt(0) { }

void main(void)
{
    for (;;) {
        state = DIV;                   /* any value */
        states[state]();
    }
}
