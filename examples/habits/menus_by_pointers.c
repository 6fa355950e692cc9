/*
 * Menus whose records in ROM lead to one another by pointers: a menu to its items, and an item to another menu, or 0 where it does
 * something. The menu that is shown is kept in RAM as such a pointer, and the item that is chosen as a number below the menu's own.
 */
#include "hardware.h"

typedef struct menu menu;

typedef struct {
    const char *text;
    const menu *next;
    uint8_t action;
} item;

struct menu {
    const char *title;
    const item *items;
    uint8_t count;
};

extern const menu main_menu;

static const item sound_items[] = { { "ON", 0, 3 }, { "OFF", 0, 4 }, { "BACK", &main_menu, 0 } };
const menu sound_menu = { "SOUND", sound_items, 3 };

static const item game_items[] = { { "NEW", 0, 1 }, { "LOAD", 0, 2 }, { "BACK", &main_menu, 0 } };
const menu game_menu = { "GAME", game_items, 3 };

static const item main_items[] = { { "GAME", &game_menu, 0 }, { "SOUND", &sound_menu, 0 } };
const menu main_menu = { "MAIN", main_items, 2 };

const menu *shown;
uint8_t chosen;
uint8_t action;
volatile uint8_t frame_done;

void vblank(void) __critical __interrupt(0)
{
    frame_done = 1;
}

static void wait_for_frame(void)
{
    while (!frame_done) {
        __asm__("halt\nnop");
    }
    frame_done = 0;
}

static uint8_t read_keys(uint8_t which)
{
    uint8_t keys;
    P1 = which;
    keys = P1;
    keys = P1;
    return ~keys & 0x0F;
}

static void put(uint8_t x, uint8_t y, const char *text)
{
    volatile uint8_t *cell = MAP + y * 32 + x;
    uint8_t n = 0;
    while (*text && n < 16) {
        *cell++ = *text++;
        n++;
    }
}

static void show(void)
{
    uint8_t i;
    put(2, 1, shown->title);
    for (i = 0; i < shown->count; i++) {
        put(3, 3 + i, shown->items[i].text);
    }
}

void main(void)
{
    shown = &main_menu;
    chosen = 0;
    show();
    IE = 1;
    __asm__("ei");
    while (1) {
        uint8_t keys;
        wait_for_frame();
        keys = read_keys(0x20);
        if (keys & 8) {
            if (chosen < shown->count - 1) {
                chosen++;
            }
        }
        if ((keys & 4) && chosen) {
            chosen--;
        }
        if (read_keys(0x10) & 1) {
            const item *it = &shown->items[chosen];
            if (it->next) {
                shown = it->next;
                chosen = 0;
                show();
            } else {
                action = it->action;
            }
        }
    }
}
