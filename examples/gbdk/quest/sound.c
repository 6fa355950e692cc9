/* Bank 7: three tunes on channel 2, and sounds on channels 1 and 4. */
#pragma bank 7
#include "quest.h"

BANKREF(sound)

typedef struct {
    uint16_t pitch;                    /* 0 is a rest */
    uint8_t length;
} note_t;

#define TUNES 3
#define NOTES 16
static const note_t notes[TUNES * NOTES] = {
    { 1046, 4 }, { 1155, 4 }, { 1253, 4 }, { 1046, 4 }, { 1253, 4 }, { 1297, 4 }, { 1379, 8 }, { 0, 4 },
    { 1379, 4 }, { 1297, 4 }, { 1253, 4 }, { 1155, 4 }, { 1046, 8 }, { 923, 4 }, { 1046, 8 }, { 0, 8 },
    { 923, 2 }, { 1046, 2 }, { 923, 2 }, { 1155, 4 }, { 0, 2 }, { 1155, 2 }, { 1046, 2 }, { 923, 4 },
    { 1046, 2 }, { 1155, 2 }, { 1253, 4 }, { 1155, 2 }, { 1046, 2 }, { 923, 4 }, { 854, 4 }, { 0, 4 },
    { 1253, 8 }, { 1155, 8 }, { 1046, 8 }, { 0, 4 }, { 1155, 8 }, { 1046, 8 }, { 923, 8 }, { 0, 4 },
    { 1046, 8 }, { 923, 8 }, { 854, 8 }, { 0, 4 }, { 711, 16 }, { 0, 8 }, { 711, 16 }, { 0, 16 },
};

typedef struct {
    uint8_t sweep, duty, envelope, low, high;
} sound_t;
#define SOUNDS 4
static const sound_t sounds[SOUNDS] = {
    { 0x00, 0x80, 0xF1, 0xC0, 0x87 },  /* SOUND_COIN */
    { 0x1D, 0x40, 0xF3, 0x00, 0x84 },  /* SOUND_HURT */
    { 0x2A, 0x40, 0xA1, 0x80, 0x86 },  /* SOUND_SWORD */
    { 0x15, 0x80, 0xF2, 0x40, 0x85 },  /* SOUND_OPEN */
};

static uint8_t tune, note, left;

void sound_init(void) BANKED
{
    NR52_REG = 0x80;
    NR50_REG = 0x77;
    NR51_REG = 0xFF;
    tune = 0;
    note = 0;
    left = 0;
}

void choose_tune(uint8_t number) BANKED
{
    CRITICAL {
        tune = number;
        note = 0;
        left = 0;
    }
}

void play_sound(uint8_t number) BANKED
{
    if (number < SOUNDS) {
        const sound_t *sound = &sounds[number];
        NR10_REG = sound->sweep;
        NR11_REG = sound->duty;
        NR12_REG = sound->envelope;
        NR13_REG = sound->low;
        NR14_REG = sound->high;
    }
}

void update_sound(void)
{
    uint8_t at = tune * NOTES + note;  /* a byte: it can't leave the bank */
    if (left != 0) {
        left--;
        return;
    }
    if (notes[at].pitch != 0) {
        NR21_REG = 0x80;
        NR22_REG = 0x73;
        NR23_REG = notes[at].pitch & 0xFF;
        NR24_REG = 0x80 | (notes[at].pitch >> 8);
    }
    left = notes[at].length;
    note++;
    if (note == NOTES)
        note = 0;
}
