/* Bank 2: the rooms, their tiles, and where the bats begin. */
#pragma bank 2
#include "caves.h"

BANKREF(rooms)

static const uint8_t sprite_tiles[2 * 16] = {
    0x3C, 0x3C, 0x42, 0x7E, 0x99, 0xE7, 0x81, 0xFF, 0xA5, 0xDB, 0x99, 0xE7, 0x42, 0x7E, 0x3C, 0x3C,
    0x00, 0x00, 0x81, 0x81, 0xC3, 0xC3, 0xE7, 0xE7, 0xFF, 0xFF, 0x7E, 0x5A, 0x3C, 0x3C, 0x18, 0x18,
};
static const uint8_t bkg_tiles[8 * 16] = {
    0x00, 0x00, 0x00, 0x00, 0x00, 0x00, 0x08, 0x00, 0x00, 0x00, 0x00, 0x00, 0x00, 0x00, 0x00, 0x00,
    0x00, 0x00, 0x20, 0x00, 0x00, 0x00, 0x00, 0x00, 0x00, 0x00, 0x02, 0x00, 0x00, 0x00, 0x00, 0x00,
    0xFF, 0xFF, 0x81, 0xFF, 0x80, 0xFF, 0x80, 0xFF, 0x80, 0xFF, 0x80, 0xFF, 0x80, 0xFF, 0xFF, 0xFF,
    0xFF, 0xFF, 0x01, 0xFF, 0x01, 0xFF, 0x81, 0xFF, 0x01, 0xFF, 0x01, 0xFF, 0x01, 0xFF, 0xFF, 0xFF,
    0x00, 0x00, 0x00, 0x00, 0x00, 0x01, 0x01, 0x03, 0x03, 0x07, 0x07, 0x0F, 0x0F, 0x1F, 0x1F, 0x3F,
    0x00, 0x00, 0x00, 0x00, 0x00, 0x80, 0x80, 0xC0, 0xC0, 0xE0, 0xE0, 0xF0, 0xF0, 0xF8, 0xF8, 0xFC,
    0x7F, 0x7F, 0x40, 0x7F, 0x5F, 0x60, 0x5F, 0x60, 0x5F, 0x60, 0x5F, 0x60, 0x5F, 0x60, 0x5F, 0x60,
    0xFE, 0xFE, 0x02, 0xFE, 0xFA, 0x06, 0xFA, 0x06, 0xFA, 0x06, 0xEA, 0x16, 0xFA, 0x06, 0xFA, 0x06,
};
static const uint8_t blocks[4][4] = {
    { 0, 1, 1, 0 },                    /* FLOOR */
    { 2, 3, 3, 2 },                    /* WALL */
    { 4, 5, 0, 0 },                    /* GEM */
    { 6, 7, 6, 7 },                    /* DOOR */
};
static const uint8_t maps[ROOMS][COLUMNS * ROWS] = {
    {
        1, 1, 1, 1, 1, 1, 1, 1, 1, 1,
        1, 0, 0, 0, 0, 0, 0, 0, 2, 1,
        1, 0, 1, 1, 0, 1, 1, 1, 0, 1,
        1, 0, 1, 0, 0, 0, 0, 1, 0, 1,
        1, 0, 0, 0, 1, 0, 0, 0, 0, 3,
        1, 0, 1, 0, 1, 0, 1, 1, 0, 1,
        1, 2, 1, 0, 0, 0, 0, 0, 2, 1,
        1, 1, 1, 1, 1, 1, 1, 1, 1, 1,
    },
    {
        1, 1, 1, 1, 1, 1, 1, 1, 1, 1,
        1, 2, 0, 0, 1, 0, 0, 0, 2, 1,
        1, 0, 1, 0, 1, 0, 1, 0, 0, 1,
        1, 0, 1, 0, 0, 0, 1, 1, 0, 1,
        1, 0, 0, 0, 1, 0, 0, 0, 0, 3,
        1, 0, 1, 1, 1, 1, 1, 0, 0, 1,
        1, 0, 0, 0, 2, 0, 0, 0, 2, 1,
        1, 1, 1, 1, 1, 1, 1, 1, 1, 1,
    },
    {
        1, 1, 1, 1, 1, 1, 1, 1, 1, 1,
        1, 0, 0, 2, 0, 0, 2, 0, 0, 1,
        1, 0, 1, 1, 1, 0, 1, 1, 0, 1,
        1, 0, 0, 0, 0, 0, 0, 0, 0, 1,
        1, 0, 1, 0, 1, 1, 0, 1, 0, 3,
        1, 0, 1, 0, 0, 0, 0, 1, 0, 1,
        1, 0, 0, 2, 0, 0, 2, 0, 0, 1,
        1, 1, 1, 1, 1, 1, 1, 1, 1, 1,
    },
    {
        1, 1, 1, 1, 1, 1, 1, 1, 1, 1,
        1, 2, 0, 0, 0, 0, 0, 0, 2, 1,
        1, 0, 0, 1, 0, 1, 0, 0, 0, 1,
        1, 0, 1, 0, 0, 0, 1, 0, 0, 1,
        1, 0, 0, 2, 0, 2, 0, 0, 0, 3,
        1, 0, 1, 0, 0, 0, 1, 0, 0, 1,
        1, 2, 0, 1, 0, 1, 0, 0, 2, 1,
        1, 1, 1, 1, 1, 1, 1, 1, 1, 1,
    },
};
static const bat_t first_bats[ROOMS][BATS] = {
    { { 64, 16, 0 }, { 48, 48, 2 }, { 80, 96, 1 } },
    { { 48, 16, 2 }, { 112, 64, 1 }, { 32, 96, 0 } },
    { { 80, 48, 0 }, { 16, 96, 3 }, { 96, 80, 1 } },
    { { 64, 32, 2 }, { 80, 96, 3 }, { 112, 16, 1 } },
};

void load_tiles(void) BANKED
{
    set_sprite_data(0, 2, sprite_tiles);
    set_bkg_data(0, 8, bkg_tiles);
}

void draw_block(uint8_t column, uint8_t row, uint8_t block) BANKED
{
    set_bkg_tiles(column * 2, row * 2, 2, 2, blocks[block]);
}

void load_room(uint8_t number) BANKED
{
    uint8_t i, column = 0, row = 0;
    for (i = 0; i < COLUMNS * ROWS; i++) {
        room[i] = maps[number][i];
        draw_block(column, row, room[i]);
        column++;
        if (column == COLUMNS) {
            column = 0;
            row++;
        }
    }
    for (i = 0; i < BATS; i++)
        bats[i] = first_bats[number][i];
}
