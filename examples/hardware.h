/* The Game Boy's registers, with the names of Pan Docs. */
#ifndef HARDWARE_H
#define HARDWARE_H

#include <stdint.h>

#define REGISTER(address) (*(volatile uint8_t *)(address))

#define P1   REGISTER(0xFF00)
#define DIV  REGISTER(0xFF04)
#define IF   REGISTER(0xFF0F)
#define LCDC REGISTER(0xFF40)
#define SCY  REGISTER(0xFF42)
#define SCX  REGISTER(0xFF43)
#define LY   REGISTER(0xFF44)
#define BGP  REGISTER(0xFF47)
#define OBP0 REGISTER(0xFF48)
#define IE   REGISTER(0xFFFF)

#define VRAM ((volatile uint8_t *)0x8000)
#define MAP  ((volatile uint8_t *)0x9800)
#define OAM  ((volatile uint8_t *)0xFE00)

#define KEY_RIGHT 0x01
#define KEY_LEFT  0x02
#define KEY_UP    0x04
#define KEY_DOWN  0x08
#define KEY_A     0x10
#define KEY_B     0x20

#endif
