/*
 * Rooms whose records in ROM lead to one another by pointers, 0 where there is no way. The room that is shown is kept in RAM as
 * such a pointer; a key takes one of its four ways.
 */
#include "hardware.h"

typedef struct room room;

struct room {
    const char *name;
    const room *ways[4];
};

extern const room hall, cellar, attic, garden, shed;

const room hall = { "HALL", { &attic, &garden, &cellar, 0 } };
const room cellar = { "CELLAR", { &hall, 0, 0, 0 } };
const room attic = { "ATTIC", { 0, 0, &hall, 0 } };
const room garden = { "GARDEN", { 0, &shed, 0, &hall } };
const room shed = { "SHED", { 0, 0, 0, &garden } };

const room *here;
volatile uint8_t frame_done;

void vblank(void) __critical __interrupt(0)
{
    frame_done = 1;
}

static void wait_for_frame(void)
{
    while (!frame_done) {
        __asm__("halt\nnop");
    }
    frame_done = 0;
}

static uint8_t read_keys(void)
{
    uint8_t keys;
    P1 = 0x20;
    keys = P1;
    keys = P1;
    return ~keys & 0x0F;
}

static void show(void)
{
    const char *name = here->name;
    volatile uint8_t *cell = MAP;
    while (*name) {
        *cell++ = *name++;
    }
}

static void go(uint8_t way)
{
    const room *next = here->ways[way];
    if (next) {
        here = next;
        show();
    }
}

void main(void)
{
    here = &hall;
    show();
    IE = 1;
    __asm__("ei");
    while (1) {
        uint8_t keys;
        uint8_t way;
        wait_for_frame();
        keys = read_keys();
        for (way = 0; way < 4; way++) {
            if (keys & 1) {
                go(way);
                break;
            }
            keys >>= 1;
        }
    }
}
