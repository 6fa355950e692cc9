/* Bank 3: the tune, which the timer's handler plays. */
#pragma bank 3
#include "caves.h"

BANKREF(music)

typedef struct {
    uint16_t pitch;                    /* 0 is a rest */
    uint8_t length;
} note_t;

#define NOTES 12
static const note_t tune[NOTES] = {
    { 1046, 8 }, { 1155, 8 }, { 1253, 8 }, { 1297, 16 }, { 0, 4 }, { 1253, 8 },
    { 1155, 8 }, { 1046, 16 }, { 0, 4 }, { 923, 8 }, { 1046, 24 }, { 0, 8 },
};
static uint8_t note, left;

void music_init(void) BANKED
{
    NR52_REG = 0x80;
    NR50_REG = 0x77;
    NR51_REG = 0xFF;
    note = 0;
    left = 0;
}

void music_update(void)
{
    if (left != 0) {
        left--;
        return;
    }
    if (tune[note].pitch != 0) {
        NR21_REG = 0x80;
        NR22_REG = 0x73;
        NR23_REG = tune[note].pitch & 0xFF;
        NR24_REG = 0x80 | (tune[note].pitch >> 8);
    }
    left = tune[note].length;
    note++;
    if (note == NOTES)
        note = 0;
}
