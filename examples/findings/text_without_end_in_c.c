/* A name in RAM is read up to its 0, which may have been overwritten. */
#include "hardware.h"

char name[4] = "AAA";
uint8_t letters;

void vblank(void) __critical __interrupt(0) { }

static void count(const char *text)
{
    letters = 0;
    while (*text++)
        letters++;
}

void main(void)
{
    for (;;) {
        name[DIV & 3] = 'A' + (LY & 15);    /* any of its bytes */
        count(name);
    }
}
