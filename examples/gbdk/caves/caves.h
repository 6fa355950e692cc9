#ifndef CAVES_H
#define CAVES_H
#include "../gb.h"

#define ROOMS 4
#define COLUMNS 10                     /* a room's blocks, 16 by 16 pixels each */
#define ROWS 8

#define FLOOR 0
#define WALL 1
#define GEM 2
#define DOOR 3

typedef struct {
    uint8_t x, y;                      /* in pixels, from the room's corner */
    uint8_t step;                      /* which way it walks: an index into dx and dy */
} bat_t;
#define BATS 3

extern uint8_t room[COLUMNS * ROWS];   /* the room that is shown */
extern bat_t bats[BATS];

/* bank 2 */
BANKREF_EXTERN(rooms)
void load_tiles(void) BANKED;
void load_room(uint8_t number) BANKED;
void draw_block(uint8_t column, uint8_t row, uint8_t block) BANKED;

/* bank 3 */
BANKREF_EXTERN(music)
void music_init(void) BANKED;
void music_update(void);

#endif
