/* Five functions count a state on, and the last one sets it back. SDCC's `switch` computes 4 - state, and looks at the carry. */
#include "hardware.h"

static uint8_t state, timer, x;

static void title(void) { timer++; if (timer == 60) { timer = 0; state++; } }
static void play(void) { x++; if (x == 150) { x = 0; state++; } }
static void dead(void) { timer++; if (timer == 100) { timer = 0; state++; } }
static void over(void) { if (x > 9) { x = 0; state++; } else state = 0; }
static void prize(void) { timer++; if (timer > 20) { timer = 0; state = 0; } }

void vblank(void) {}

void main(void) {
    state = 0; timer = 0; x = 0;
    while (1) {
        switch (state) {
        case 0: title(); break;
        case 1: play(); break;
        case 2: dead(); break;
        case 3: over(); break;
        case 4: prize(); break;
        }
    }
}
