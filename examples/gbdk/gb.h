/* The library's functions, with GBDK's names. */
#ifndef GB_H
#define GB_H

#include <stdint.h>

#define BANKED __banked
#define NONBANKED __nonbanked
#define CRITICAL __critical
#define OLDCALL __sdcccall(0)

/* BANKREF(x) in a bank's file names the bank that it is in, and BANK(x) is that number. */
#define BANKREF(name) void __func_ ## name(void) __banked __naked { \
__asm \
    .local b___func_ ## name \
    ___bank_ ## name = b___func_ ## name \
    .globl ___bank_ ## name \
__endasm; \
}
#define BANKREF_EXTERN(name) extern const void __bank_ ## name;
#define BANK(name) ((uint8_t)&__bank_ ## name)

#define REG(address) (*(volatile uint8_t *)(address))
#define P1_REG    REG(0xFF00)
#define DIV_REG   REG(0xFF04)
#define TIMA_REG  REG(0xFF05)
#define TMA_REG   REG(0xFF06)
#define TAC_REG   REG(0xFF07)
#define IF_REG    REG(0xFF0F)
#define NR10_REG  REG(0xFF10)
#define NR11_REG  REG(0xFF11)
#define NR12_REG  REG(0xFF12)
#define NR13_REG  REG(0xFF13)
#define NR14_REG  REG(0xFF14)
#define NR21_REG  REG(0xFF16)
#define NR22_REG  REG(0xFF17)
#define NR23_REG  REG(0xFF18)
#define NR24_REG  REG(0xFF19)
#define NR41_REG  REG(0xFF20)
#define NR42_REG  REG(0xFF21)
#define NR43_REG  REG(0xFF22)
#define NR44_REG  REG(0xFF23)
#define NR50_REG  REG(0xFF24)
#define NR51_REG  REG(0xFF25)
#define NR52_REG  REG(0xFF26)
#define LCDC_REG  REG(0xFF40)
#define SCY_REG   REG(0xFF42)
#define SCX_REG   REG(0xFF43)
#define LY_REG    REG(0xFF44)
#define BGP_REG   REG(0xFF47)
#define OBP0_REG  REG(0xFF48)
#define IE_REG    REG(0xFFFF)

#define VBL_IFLAG 0x01
#define TIM_IFLAG 0x04

#define J_RIGHT  0x01
#define J_LEFT   0x02
#define J_UP     0x04
#define J_DOWN   0x08
#define J_A      0x10
#define J_B      0x20
#define J_SELECT 0x40
#define J_START  0x80

#define DISPLAY_ON   LCDC_REG |= 0x80
#define DISPLAY_OFF  display_off()
#define SHOW_BKG     LCDC_REG |= 0x01
#define SHOW_SPRITES LCDC_REG |= 0x02

/* In HRAM: what VBlank sets, the frames since the start, and the bank that 4000-7FFF shows. */
extern volatile __sfr __at(0xFF90) _current_bank;
extern volatile __sfr __at(0xFF91) vbl_done;

/* The variable is written before the register: an interrupt in between restores the bank by the variable. */
#define SWITCH_ROM(bank) (_current_bank = (bank), REG(0x2000) = (bank))
#define ENABLE_RAM   (REG(0x0000) = 0x0A)
#define DISABLE_RAM  (REG(0x0000) = 0x00)

typedef void (*int_handler)(void);
void add_VBL(int_handler handler);
void add_TIM(int_handler handler);
void set_interrupts(uint8_t flags);
void wait_vbl_done(void);
void display_off(void);
uint8_t joypad(void);

void set_bkg_data(uint8_t first, uint8_t count, const uint8_t *data) OLDCALL;
void set_sprite_data(uint8_t first, uint8_t count, const uint8_t *data) OLDCALL;
void set_bkg_tiles(uint8_t x, uint8_t y, uint8_t w, uint8_t h, const uint8_t *tiles) OLDCALL;

/* The objects, copied to OAM in VBlank. */
typedef struct {
    uint8_t y, x, tile, prop;
} OAM_item_t;
extern volatile OAM_item_t shadow_OAM[40];

#define set_sprite_tile(nb, t) (shadow_OAM[nb].tile = (t))
#define set_sprite_prop(nb, p) (shadow_OAM[nb].prop = (p))
#define move_sprite(nb, to_x, to_y) (shadow_OAM[nb].y = (to_y), shadow_OAM[nb].x = (to_x))
#define hide_sprite(nb) (shadow_OAM[nb].y = 0)

/* Text: tiles 128 to 191 are the characters from the blank on. */
void font_load(void);
void gotoxy(uint8_t x, uint8_t y);
void putchar(char c);
void puts(const char *text);
void put_number(uint8_t n);

#endif
