#ifndef QUEST_H
#define QUEST_H
#include "../gb.h"

/* What is on the screen: 10 by 8 blocks of 16 by 16 pixels, and two rows of text. */
#define COLUMNS 10
#define ROWS 8
#define BLOCKS (COLUMNS * ROWS)
#define SCREENS 9                      /* three rows of three */

#define GRASS 0
#define TREE 1
#define WATER 2
#define COIN 3
#define KEY 4
#define DOOR 5
#define SIGN 6
#define CHEST 7

/* The states of the game. */
#define TITLE 0
#define WALK 1
#define TALK 2
#define MENU 3
#define OVER 4
#define WON 5

/* The ways, as indices into dx and dy. */
#define RIGHT 0
#define LEFT 1
#define DOWN 2
#define UP 3

typedef struct {
    uint8_t kind;
    uint8_t x, y;
    uint8_t way;
    uint8_t timer;
} actor_t;
#define ACTORS 5
#define NOBODY 0
#define BAT 1
#define SLIME 2
#define GHOST 3

typedef struct {
    uint8_t x, y, way;
    uint8_t life, gold, keys;
    uint8_t safe;                      /* frames in which nothing hurts */
    uint8_t sword;                     /* frames for which it is out */
} player_t;

extern const uint8_t dx[4], dy[4];
extern uint8_t blocks[BLOCKS];         /* of the screen that is shown */
extern uint8_t state, screen;
extern uint8_t keys, pressed;          /* held now, and since this frame */
extern player_t player;
extern actor_t actors[ACTORS];

/* main.c, in bank 0 */
uint8_t block_at(uint8_t x, uint8_t y);
uint8_t is_free(uint8_t x, uint8_t y);
void enter_screen(void);
void new_game(void);
void show_status(void);
void clear_status(void);

/* bank 1: the player */
void move_player(void) BANKED;
void show_player(void) BANKED;

/* bank 2: the world */
void load_tiles(void) BANKED;
void load_screen(void) BANKED;
void draw_block(uint8_t column, uint8_t row, uint8_t block) BANKED;

/* bank 3: the actors */
void spawn_actors(void) BANKED;
void move_actors(void) BANKED;
void hit_actors(uint8_t x, uint8_t y) BANKED;

/* bank 4: what signs say */
void begin_talk(void) BANKED;
void go_on_talking(void) BANKED;

/* bank 5: the title, the menu, and the end */
void show_title(void) BANKED;
void run_title(void) BANKED;
void open_menu(void) BANKED;
void run_menu(void) BANKED;
void show_end(uint8_t won) BANKED;

/* bank 6: cartridge RAM */
void save_game(uint8_t slot) BANKED;
uint8_t load_game(uint8_t slot) BANKED;

/* bank 7: sound */
#define SOUND_COIN 0
#define SOUND_HURT 1
#define SOUND_SWORD 2
#define SOUND_OPEN 3
BANKREF_EXTERN(sound)
void sound_init(void) BANKED;
void choose_tune(uint8_t number) BANKED;
void play_sound(uint8_t number) BANKED;
void update_sound(void);

#endif
