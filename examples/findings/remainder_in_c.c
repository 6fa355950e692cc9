/* Three rows take turns: nothing bounds what % gives. */
#include "hardware.h"

uint8_t rows[3][8];
uint8_t turn;

void vblank(void) __critical __interrupt(0) { }

void main(void)
{
    for (;;) {
        uint8_t *row = rows[turn % 3];    /* a row by a remainder */
        row[0] = turn++;
    }
}
