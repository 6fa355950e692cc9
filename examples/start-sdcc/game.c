/* A ball that the direction keys move, with a tune. Shadow OAM, OAM DMA in VBlank, joypad, banked calls. */
#include "../hardware.h"

#define AUDENA REGISTER(0xFF26)
#define AUDVOL REGISTER(0xFF24)
#define AUDTERM REGISTER(0xFF25)

/* Shadow OAM has a page of its own: DMA copies from C000. */
__at(0xC000) volatile uint8_t shadow_oam[160];

uint8_t current_bank = 1;
uint8_t ball_x = 80, ball_y = 80;
volatile uint8_t frame_done;

extern void oam_dma(void);             /* in HRAM, see crt0.s */
void music_update(void) __banked;      /* in bank 2 */
void draw_field(void) __banked;        /* in bank 3 */

/* __critical: without it SDCC begins the handler with EI. */
void vblank_isr(void) __critical __interrupt(0)
{
    oam_dma();
    music_update();
    frame_done = 1;
}

uint8_t read_joypad(void)
{
    uint8_t keys;
    P1 = 0x20;                         /* directions */
    keys = P1;
    keys = P1;
    keys = ~keys & 0x0F;
    P1 = 0x30;
    return keys;
}

void move_ball(uint8_t keys)
{
    if ((keys & KEY_LEFT) && ball_x > 8)
        ball_x--;
    if ((keys & KEY_RIGHT) && ball_x < 160)
        ball_x++;
    if ((keys & KEY_UP) && ball_y > 16)
        ball_y--;
    if ((keys & KEY_DOWN) && ball_y < 152)
        ball_y++;
}

void show_ball(void)
{
    shadow_oam[0] = ball_y;
    shadow_oam[1] = ball_x;
    shadow_oam[2] = 1;
    shadow_oam[3] = 0;
}

void main(void)
{
    uint8_t i;
    while (LY != 144)
        ;
    LCDC = 0;
    for (i = 0; i != 160; i++)
        shadow_oam[i] = 0;
    draw_field();
    AUDENA = 0x80;
    AUDVOL = 0x77;
    AUDTERM = 0xFF;
    SCX = 0;
    SCY = 0;
    BGP = 0xE4;
    OBP0 = 0xE4;
    LCDC = 0x93;
    IF = 0;
    IE = 0x01;
    __asm__("ei");                     /* last: the handler calls code in HRAM */
    for (;;) {
        while (!frame_done)
            __asm__("halt\nnop");
        frame_done = 0;
        move_ball(read_joypad());
        show_ball();
    }
}
