/*
 * Caves: take every gem of a room, and the door leads to the next one. A bat's touch costs a life. The best score is kept in
 * cartridge RAM. Rooms are in bank 2, the tune is in bank 3.
 */
#include "caves.h"

#define TITLE 0
#define PLAY 1
#define OVER 2

#define LIVES 3

uint8_t room[COLUMNS * ROWS];
bat_t bats[BATS];
uint8_t state, number, gems, lives, score, best;
uint8_t player_x, player_y, safe;
uint8_t keys, old_keys;

/* the ways: right, left, down, up */
static const uint8_t dx[4] = { 1, 0xFF, 0, 0 };
static const uint8_t dy[4] = { 0, 0, 1, 0xFF };

/* What is kept in cartridge RAM: a mark, the score, and their sum. */
#define SAVE ((uint8_t *)0xA000)
#define MARK 0x5A

/* Called by the timer's handler, whatever bank is shown. */
void play_music(void) NONBANKED
{
    uint8_t bank = _current_bank;
    SWITCH_ROM(BANK(music));
    music_update();
    SWITCH_ROM(bank);
}

static void load_best(void)
{
    ENABLE_RAM;
    if (SAVE[0] == MARK && SAVE[2] == (uint8_t)(MARK + SAVE[1]))
        best = SAVE[1];
    else
        best = 0;
    DISABLE_RAM;
}

static void save_best(void)
{
    ENABLE_RAM;
    SAVE[0] = MARK;
    SAVE[1] = best;
    SAVE[2] = MARK + best;
    DISABLE_RAM;
}

static uint8_t block_at(uint8_t x, uint8_t y)
{
    uint8_t at = (y >> 4) * COLUMNS + (x >> 4);
    return room[at];
}

/* Whether an object of 8 by 8 pixels may be there. */
static uint8_t is_free(uint8_t x, uint8_t y)
{
    if (block_at(x, y) == WALL || block_at(x + 7, y) == WALL)
        return 0;
    return block_at(x, y + 7) != WALL && block_at(x + 7, y + 7) != WALL;
}

static void show_status(void)
{
    gotoxy(6, 16);
    put_number(score);
    gotoxy(17, 16);
    put_number(lives);
}

static void enter_room(void)
{
    uint8_t i;
    load_room(number);
    gems = 0;
    for (i = 0; i < COLUMNS * ROWS; i++) {
        if (room[i] == GEM)
            gems++;
    }
    player_x = 20;
    player_y = 20;
    safe = 60;
    show_status();
}

static void start_game(void)
{
    number = 0;
    lives = LIVES;
    score = 0;
    state = PLAY;
    gotoxy(0, 16);
    puts("SCORE      LIVES    ");
    gotoxy(0, 17);
    puts("                    ");
    enter_room();
}

static void end_game(void)
{
    state = OVER;
    gotoxy(0, 17);
    puts("GAME OVER");
    if (score > best) {
        best = score;
        save_best();
    }
}

static void take_block(void)
{
    uint8_t column = (uint8_t)(player_x + 4) >> 4, row = (uint8_t)(player_y + 4) >> 4;
    uint8_t at = row * COLUMNS + column;
    uint8_t block = room[at];
    if (block == GEM) {
        room[at] = FLOOR;
        draw_block(column, row, FLOOR);
        gems--;
        score++;
        show_status();
    } else if (block == DOOR && gems == 0) {
        number++;
        if (number == ROOMS)
            number = 0;
        enter_room();
    }
}

static void move_player(void)
{
    uint8_t x = player_x, y = player_y;
    if (keys & J_LEFT)
        x--;
    else if (keys & J_RIGHT)
        x++;
    if (is_free(x, y))
        player_x = x;
    x = player_x;
    if (keys & J_UP)
        y--;
    else if (keys & J_DOWN)
        y++;
    if (is_free(x, y))
        player_y = y;
    take_block();
}

static void move_bats(void)
{
    uint8_t i;
    bat_t *bat = bats;
    for (i = 0; i < BATS; i++, bat++) {
        uint8_t x = bat->x + dx[bat->step];
        uint8_t y = bat->y + dy[bat->step];
        if (is_free(x, y)) {
            bat->x = x;
            bat->y = y;
        } else {
            bat->step = (bat->step + 1 + (DIV_REG & 1)) & 3;
        }
        if (safe == 0 && (uint8_t)(bat->x - player_x + 6) < 13 && (uint8_t)(bat->y - player_y + 6) < 13) {
            lives--;
            safe = 90;
            show_status();
        }
    }
}

static void show_objects(void)
{
    static uint8_t i;
    if (safe & 4)
        hide_sprite(0);
    else
        move_sprite(0, player_x + 8, player_y + 16);
    for (i = 0; i < BATS; i++)
        move_sprite(i + 1, bats[i].x + 8, bats[i].y + 16);
}

static void play(void)
{
    if (safe != 0)
        safe--;
    move_player();
    move_bats();
    show_objects();
    if (lives == 0)
        end_game();
}

static void show_title(void)
{
    load_room(0);
    gotoxy(7, 4);
    puts("CAVES");
    gotoxy(4, 6);
    puts("PRESS START");
    gotoxy(4, 16);
    puts("BEST");
    gotoxy(9, 16);
    put_number(best);
    state = TITLE;
}

void main(void)
{
    uint8_t i;
    font_load();
    load_tiles();
    set_sprite_tile(0, 0);
    for (i = 1; i <= BATS; i++)
        set_sprite_tile(i, 1);
    load_best();
    show_title();
    music_init();
    CRITICAL {
        add_TIM(play_music);
    }
    TMA_REG = 0;
    TAC_REG = 0x04;
    set_interrupts(VBL_IFLAG | TIM_IFLAG);
    SHOW_BKG;
    SHOW_SPRITES;
    DISPLAY_ON;
    while (1) {
        old_keys = keys;
        keys = joypad();
        switch (state) {
        case TITLE:
            if (keys & ~old_keys & J_START)
                start_game();
            break;
        case PLAY:
            play();
            break;
        case OVER:
            if (keys & ~old_keys & J_START)
                show_title();
            break;
        }
        wait_vbl_done();
    }
}
