/* A store into an array by an index that has no bound. */
#include "hardware.h"

uint8_t buffer[32];

void vblank(void) __critical __interrupt(0) { }

void main(void)
{
    for (;;) {
        uint16_t i = DIV << 8 | LY;    /* any value */
        buffer[i] = 1;
    }
}
