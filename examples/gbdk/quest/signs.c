/* Bank 4: what the signs say, a letter each second frame. */
#pragma bank 4
#include "quest.h"

#define LENGTH 40                      /* two rows of 20 */

static const char texts[SCREENS][LENGTH + 1] = {
    "WELCOME TO THE WOODSTAKE A SWORD WITH YO",
    "BATS DON'T CARE     WHERE THEY FLY      ",
    "EAST OF HERE IS     NOTHING             ",
    "A KEY LIES IN THE   SOUTH               ",
    "GHOSTS KNOW WHERE   YOU ARE             ",
    "THE LAKE IS DEEP    STAY ON THE GRASS   ",
    "SLIMES REST OFTEN   WAIT FOR THAT       ",
    "THE DOOR IS CLOSED  BRING A KEY         ",
    "THE CROWN IS HERE   TAKE IT AND WIN     ",
};
static uint8_t at, slow;

void begin_talk(void) BANKED
{
    clear_status();
    gotoxy(0, 16);
    at = 0;
    slow = 0;
    state = TALK;
}

void go_on_talking(void) BANKED
{
    if (at < LENGTH) {
        slow ^= 1;
        if (slow) {
            putchar(texts[screen][at]);
            at++;
        }
    } else if (pressed & (J_A | J_B)) {
        show_status();
        state = WALK;
    }
}
