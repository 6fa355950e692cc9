/*
 * Quest: nine screens of woods, with bats, slimes and ghosts, signs to read, chests, and a door that wants a key. What is in the
 * last chest wins the game. A and B are the sword and signs, START opens a menu that saves. Everything but what all banks call is
 * in banks of its own.
 */
#include "quest.h"

const uint8_t dx[4] = { 1, 0xFF, 0, 0 };
const uint8_t dy[4] = { 0, 0, 1, 0xFF };

/* Which blocks stop who walks. */
static const uint8_t solid[8] = { 0, 1, 1, 0, 0, 1, 1, 1 };

uint8_t blocks[BLOCKS];
uint8_t state, screen;
uint8_t keys, pressed;
player_t player;
actor_t actors[ACTORS];

/* Called by the timer's handler, whatever bank is shown. */
void timer_handler(void) NONBANKED
{
    uint8_t bank = _current_bank;
    SWITCH_ROM(BANK(sound));
    update_sound();
    SWITCH_ROM(bank);
}

uint8_t block_at(uint8_t x, uint8_t y)
{
    uint8_t at = (y >> 4) * COLUMNS + (x >> 4);
    return blocks[at];
}

/* Whether somebody of 8 by 8 pixels may be there. */
uint8_t is_free(uint8_t x, uint8_t y)
{
    if (x > 152 || y > 120)
        return 0;
    if (solid[block_at(x, y) & 7] || solid[block_at(x + 7, y) & 7])
        return 0;
    return !solid[block_at(x, y + 7) & 7] && !solid[block_at(x + 7, y + 7) & 7];
}

void clear_status(void)
{
    gotoxy(0, 16);
    puts("                    ");
    gotoxy(0, 17);
    puts("                    ");
}

void show_status(void)
{
    gotoxy(0, 16);
    puts("LIFE     GOLD       ");
    gotoxy(5, 16);
    put_number(player.life);
    gotoxy(14, 16);
    put_number(player.gold);
    gotoxy(0, 17);
    puts("KEYS                ");
    gotoxy(5, 17);
    put_number(player.keys);
}

void enter_screen(void)
{
    load_screen();
    spawn_actors();
    show_status();
}

void new_game(void)
{
    screen = 0;
    player.x = 36;
    player.y = 36;
    player.way = DOWN;
    player.life = 5;
    player.gold = 0;
    player.keys = 0;
    player.safe = 60;
    player.sword = 0;
    state = WALK;
    choose_tune(1);
    enter_screen();
}

static void walk(void)
{
    if (pressed & J_START) {
        open_menu();
        return;
    }
    move_player();
    move_actors();
    show_player();
    if (player.life == 0)
        show_end(0);
}

void main(void)
{
    font_load();
    load_tiles();
    sound_init();
    show_title();
    CRITICAL {
        add_TIM(timer_handler);
    }
    TMA_REG = 0;
    TAC_REG = 0x04;                    /* 16 times a second */
    set_interrupts(VBL_IFLAG | TIM_IFLAG);
    SHOW_BKG;
    SHOW_SPRITES;
    DISPLAY_ON;
    while (1) {
        uint8_t now = joypad();
        pressed = now & ~keys;
        keys = now;
        switch (state) {
        case TITLE:
            run_title();
            break;
        case WALK:
            walk();
            break;
        case TALK:
            go_on_talking();
            break;
        case MENU:
            run_menu();
            break;
        default:
            if (pressed & J_START)
                show_title();
            break;
        }
        wait_vbl_done();
    }
}
