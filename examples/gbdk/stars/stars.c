/* Stars fall, and a basket catches them. Five are missed, and the game is over; START begins again. */
#include "../gb.h"

#define STARS 4
#define BASKET 0                       /* its objects: two */
#define FIRST_STAR 2

typedef struct {
    uint8_t x, y, speed;
} star_t;

const uint8_t sprite_tiles[3 * 16] = {
    0x00, 0x00, 0x00, 0x00, 0xFF, 0xFF, 0x80, 0xFF, 0x40, 0x7F, 0x40, 0x7F, 0x20, 0x3F, 0x1F, 0x1F,
    0x00, 0x00, 0x00, 0x00, 0xFF, 0xFF, 0x01, 0xFF, 0x02, 0xFE, 0x02, 0xFE, 0x04, 0xFC, 0xF8, 0xF8,
    0x10, 0x10, 0x10, 0x10, 0x38, 0x38, 0xFE, 0xFE, 0x7C, 0x7C, 0x38, 0x38, 0x6C, 0x6C, 0x44, 0x44,
};
const uint8_t bkg_tiles[2 * 16] = {
    0, 0, 0, 0, 0, 0, 0, 0, 0, 0, 0, 0, 0, 0, 0, 0,
    0xFF, 0x00, 0xEF, 0x10, 0xFF, 0x00, 0xFF, 0x00, 0xFE, 0x01, 0xFF, 0x00, 0xFF, 0x00, 0xFF, 0x00,
};
const uint8_t ground[20] = { 1, 1, 1, 1, 1, 1, 1, 1, 1, 1, 1, 1, 1, 1, 1, 1, 1, 1, 1, 1 };

star_t stars[STARS];
uint8_t basket_x, score, missed;
uint8_t seed;
volatile uint8_t ticks;

void count_tick(void)
{
    ticks++;
}

uint8_t next_random(void)
{
    seed = seed * 5 + 17;
    return seed ^ DIV_REG;
}

void new_star(star_t *star)
{
    star->x = 8 + (next_random() & 0x7F);
    star->y = 16;
    star->speed = 1 + (next_random() & 1);
}

void show_score(void)
{
    gotoxy(6, 0);
    put_number(score);
    gotoxy(17, 0);
    put_number(missed);
}

void start_game(void)
{
    uint8_t i;
    basket_x = 80;
    score = 0;
    missed = 0;
    for (i = 0; i < STARS; i++) {
        new_star(&stars[i]);
        stars[i].y = 16 + 24 * i;
        set_sprite_tile(FIRST_STAR + i, 2);
    }
    gotoxy(5, 8);
    puts("         ");
    show_score();
}

void move_stars(void)
{
    uint8_t i;
    for (i = 0; i < STARS; i++) {
        stars[i].y += stars[i].speed;
        if (stars[i].y >= 136) {
            uint8_t off = stars[i].x - basket_x + 8;
            if (off < 24)
                score++;
            else
                missed++;
            new_star(&stars[i]);
            show_score();
        }
        move_sprite(FIRST_STAR + i, stars[i].x, stars[i].y);
    }
}

void main(void)
{
    DISPLAY_OFF;
    font_load();
    set_sprite_data(0, 3, sprite_tiles);
    set_bkg_data(0, 2, bkg_tiles);
    set_bkg_tiles(0, 16, 20, 1, ground);
    set_sprite_tile(BASKET, 0);
    set_sprite_tile(BASKET + 1, 1);
    gotoxy(0, 0);
    puts("SCORE");
    gotoxy(10, 0);
    puts("MISSED");
    CRITICAL {
        add_VBL(count_tick);
    }
    SHOW_BKG;
    SHOW_SPRITES;
    DISPLAY_ON;
    start_game();
    while (1) {
        uint8_t keys = joypad();
        if (missed < 5) {
            if ((keys & J_LEFT) && basket_x > 8)
                basket_x -= 2;
            if ((keys & J_RIGHT) && basket_x < 152)
                basket_x += 2;
            move_sprite(BASKET, basket_x, 144);
            move_sprite(BASKET + 1, basket_x + 8, 144);
            move_stars();
        } else {
            gotoxy(5, 8);
            puts("GAME OVER");
            if (keys & J_START) {
                seed += ticks;
                start_game();
            }
        }
        wait_vbl_done();
    }
}
