/* Three loops whose counters the compiler keeps on the stack. */
#include "hardware.h"

uint8_t paths[3][3], ways[3][3];

void vblank(void) __critical __interrupt(0) { }

static void count_paths(void)
{
    for (uint8_t i = 0; i < 3; i++)
        for (uint8_t j = 0; j < 3; j++)
            for (uint8_t k = 0; k < 3; k++)
                if (ways[i][k] && ways[k][j])
                    paths[i][j]++;
}

void main(void)
{
    for (;;) {
        ways[0][1] = DIV;
        ways[1][2] = LY;
        count_paths();
    }
}
