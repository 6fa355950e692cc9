/* Bank 3: bats, slimes and ghosts. */
#pragma bank 3
#include "quest.h"

#define FIRST_OBJECT 2

static const actor_t first_actors[SCREENS][ACTORS] = {
    { { SLIME, 96, 40, 0, 0 }, { NOBODY, 0, 0, 0, 0 }, { NOBODY, 0, 0, 0, 0 }, { NOBODY, 0, 0, 0, 0 }, { NOBODY, 0, 0, 0, 0 } },
    { { BAT, 64, 32, 1, 0 }, { BAT, 96, 80, 0, 0 }, { SLIME, 36, 84, 2, 0 }, { NOBODY, 0, 0, 0, 0 }, { NOBODY, 0, 0, 0, 0 } },
    { { SLIME, 40, 40, 0, 0 }, { SLIME, 100, 84, 1, 9 }, { NOBODY, 0, 0, 0, 0 }, { NOBODY, 0, 0, 0, 0 }, { NOBODY, 0, 0, 0, 0 } },
    { { BAT, 40, 64, 2, 0 }, { BAT, 80, 40, 3, 0 }, { BAT, 110, 90, 0, 0 }, { NOBODY, 0, 0, 0, 0 }, { NOBODY, 0, 0, 0, 0 } },
    { { GHOST, 80, 64, 0, 0 }, { NOBODY, 0, 0, 0, 0 }, { NOBODY, 0, 0, 0, 0 }, { NOBODY, 0, 0, 0, 0 }, { NOBODY, 0, 0, 0, 0 } },
    { { SLIME, 36, 36, 0, 0 }, { BAT, 80, 80, 1, 0 }, { GHOST, 110, 36, 2, 0 }, { NOBODY, 0, 0, 0, 0 }, { NOBODY, 0, 0, 0, 0 } },
    { { SLIME, 52, 84, 3, 0 }, { SLIME, 84, 52, 2, 5 }, { SLIME, 100, 36, 1, 11 }, { BAT, 36, 36, 0, 0 }, { NOBODY, 0, 0, 0, 0 } },
    { { GHOST, 36, 84, 3, 0 }, { GHOST, 100, 36, 1, 0 }, { NOBODY, 0, 0, 0, 0 }, { NOBODY, 0, 0, 0, 0 }, { NOBODY, 0, 0, 0, 0 } },
    { { GHOST, 36, 84, 3, 0 }, { GHOST, 100, 84, 1, 0 }, { BAT, 80, 36, 0, 0 }, { BAT, 60, 84, 1, 0 }, { SLIME, 84, 84, 2, 0 } },
};

static uint8_t seed;

static uint8_t random_way(void)
{
    seed = seed * 5 + DIV_REG;
    return (seed >> 3) & 3;
}

void spawn_actors(void) BANKED
{
    static uint8_t i;
    for (i = 0; i < ACTORS; i++) {
        actors[i] = first_actors[screen][i];
        set_sprite_tile(FIRST_OBJECT + i, actors[i].kind);
    }
}

static uint8_t walk(actor_t *actor)
{
    uint8_t x = actor->x + dx[actor->way & 3];
    uint8_t y = actor->y + dy[actor->way & 3];
    if (!is_free(x, y))
        return 0;
    actor->x = x;
    actor->y = y;
    return 1;
}

/* Flies until something is in the way. */
static void move_bat(actor_t *actor)
{
    if (!walk(actor))
        actor->way = random_way();
}

/* Rests, then walks for a while. */
static void move_slime(actor_t *actor)
{
    actor->timer++;
    if (actor->timer >= 64) {
        actor->timer = 0;
        actor->way = random_way();
    }
    if (actor->timer & 0x20)
        walk(actor);
}

/* Goes to the player, through everything. */
static void move_ghost(actor_t *actor)
{
    actor->timer++;
    if (actor->timer & 1)
        return;
    if (actor->x < player.x)
        actor->x++;
    else if (actor->x > player.x)
        actor->x--;
    if (actor->y < player.y)
        actor->y++;
    else if (actor->y > player.y)
        actor->y--;
}

void move_actors(void) BANKED
{
    static uint8_t i;
    for (i = 0; i < ACTORS; i++) {
        actor_t *actor = &actors[i];
        switch (actor->kind) {
        case BAT:
            move_bat(actor);
            break;
        case SLIME:
            move_slime(actor);
            break;
        case GHOST:
            move_ghost(actor);
            break;
        default:
            hide_sprite(FIRST_OBJECT + i);
            continue;
        }
        move_sprite(FIRST_OBJECT + i, actor->x + 8, actor->y + 16);
        if (player.safe == 0 && (uint8_t)(actor->x - player.x + 6) < 13 && (uint8_t)(actor->y - player.y + 6) < 13) {
            if (player.life != 0)
                player.life--;
            player.safe = 90;
            play_sound(SOUND_HURT);
            show_status();
        }
    }
}

void hit_actors(uint8_t x, uint8_t y) BANKED
{
    static uint8_t i;
    for (i = 0; i < ACTORS; i++) {
        actor_t *actor = &actors[i];
        if (actor->kind != NOBODY && (uint8_t)(actor->x - x + 8) < 17 && (uint8_t)(actor->y - y + 8) < 17) {
            actor->kind = NOBODY;
            if (player.gold < 250)
                player.gold++;
            show_status();
        }
    }
}
