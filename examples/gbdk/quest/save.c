/* Bank 6: three games in cartridge RAM, each with a mark and a sum. Interrupts wait while it is enabled. */
#pragma bank 6
#include "quest.h"

#define SLOTS 3
#define MARK 0x51

typedef struct {
    uint8_t mark;
    uint8_t screen, x, y;
    uint8_t life, gold, keys;
    uint8_t sum;
} save_t;
#define SAVES ((save_t *)0xA000)

static uint8_t sum_of(save_t *save)
{
    return save->mark + save->screen + save->x + save->y + save->life + save->gold + save->keys;
}

void save_game(uint8_t slot) BANKED
{
    save_t *save;
    if (slot >= SLOTS)
        return;
    save = &SAVES[slot];
    CRITICAL {
        ENABLE_RAM;
        save->mark = MARK;
        save->screen = screen;
        save->x = player.x;
        save->y = player.y;
        save->life = player.life;
        save->gold = player.gold;
        save->keys = player.keys;
        save->sum = sum_of(save);
        DISABLE_RAM;
    }
}

uint8_t load_game(uint8_t slot) BANKED
{
    save_t *save;
    uint8_t found = 0;
    if (slot >= SLOTS)
        return 0;
    save = &SAVES[slot];
    CRITICAL {
        ENABLE_RAM;
        if (save->mark == MARK && save->sum == sum_of(save) && save->screen < SCREENS) {
            screen = save->screen;
            player.x = save->x;
            player.y = save->y;
            player.life = save->life;
            player.gold = save->gold;
            player.keys = save->keys;
            player.way = DOWN;
            player.sword = 0;
            player.safe = 60;
            found = 1;
        }
        DISABLE_RAM;
    }
    return found;
}
