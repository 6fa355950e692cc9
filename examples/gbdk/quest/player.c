/* Bank 1: the player walks, fights, takes and opens. */
#pragma bank 1
#include "quest.h"

/* Where the sword is, from the player: by the way. */
static const uint8_t sword_x[4] = { 8, 0xF8, 0, 0 };
static const uint8_t sword_y[4] = { 0, 0, 8, 0xF8 };

/* Takes what lies at the player's feet. */
static void take(void)
{
    uint8_t column = (uint8_t)(player.x + 4) >> 4;
    uint8_t row = (uint8_t)(player.y + 4) >> 4;
    uint8_t at = row * COLUMNS + column;
    uint8_t block = blocks[at];
    if (block == COIN) {
        if (player.gold < 250)
            player.gold++;
        play_sound(SOUND_COIN);
    } else if (block == KEY) {
        player.keys++;
        play_sound(SOUND_COIN);
    } else {
        return;
    }
    blocks[at] = GRASS;
    draw_block(column, row, GRASS);
    show_status();
}

/* What is in front: a sign is read, a chest or a door opens. */
static void use(void)
{
    uint8_t way = player.way & 3;
    uint8_t x = player.x + 4 + sword_x[way];
    uint8_t y = player.y + 4 + sword_y[way];
    uint8_t column = x >> 4, row = y >> 4;
    uint8_t at = row * COLUMNS + column;
    switch (blocks[at]) {
    case SIGN:
        begin_talk();
        return;
    case DOOR:
        if (player.keys == 0)
            return;
        player.keys--;
        break;
    case CHEST:
        if (screen == SCREENS - 1) {
            show_end(1);
            return;
        }
        player.life = 5;
        player.gold += 5;
        break;
    default:
        return;
    }
    play_sound(SOUND_OPEN);
    blocks[at] = GRASS;
    draw_block(column, row, GRASS);
    show_status();
}

/* Beyond the edge is the next screen. */
static uint8_t leave(void)
{
    if (player.x < 2 && player.way == LEFT) {
        screen--;
        player.x = 150;
    } else if (player.x >= 151 && player.way == RIGHT) {
        screen++;
        player.x = 3;
    } else if (player.y < 2 && player.way == UP) {
        screen -= 3;
        player.y = 118;
    } else if (player.y >= 119 && player.way == DOWN) {
        screen += 3;
        player.y = 3;
    } else {
        return 0;
    }
    if (screen >= SCREENS)
        screen = 0;
    enter_screen();
    return 1;
}

static void step(void)
{
    uint8_t x, y;
    if (keys & J_RIGHT)
        player.way = RIGHT;
    else if (keys & J_LEFT)
        player.way = LEFT;
    else if (keys & J_DOWN)
        player.way = DOWN;
    else if (keys & J_UP)
        player.way = UP;
    else
        return;
    x = player.x + dx[player.way & 3];
    y = player.y + dy[player.way & 3];
    if (is_free(x, y)) {
        player.x = x;
        player.y = y;
    }
}

void move_player(void) BANKED
{
    if (player.safe != 0)
        player.safe--;
    if (player.sword != 0) {
        player.sword--;
    } else if (pressed & J_A) {
        player.sword = 12;
        play_sound(SOUND_SWORD);
    } else if (pressed & J_B) {
        use();
    } else {
        step();
        if (leave())
            return;
        take();
    }
    if (player.sword == 11)
        hit_actors(player.x + sword_x[player.way & 3], player.y + sword_y[player.way & 3]);
}

void show_player(void) BANKED
{
    if (player.safe & 4)
        hide_sprite(0);
    else
        move_sprite(0, player.x + 8, player.y + 16);
    if (player.sword != 0) {
        uint8_t way = player.way & 3;
        move_sprite(1, player.x + 8 + sword_x[way], player.y + 16 + sword_y[way]);
        set_sprite_tile(1, 4 + (way >> 1));
    } else {
        hide_sprite(1);
    }
}
