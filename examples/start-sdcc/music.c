/* Bank 2: a tune on channel 1, a step each frame. */
#pragma bank 2
#include "../hardware.h"

#define AUD1ENV  REGISTER(0xFF12)
#define AUD1LOW  REGISTER(0xFF13)
#define AUD1HIGH REGISTER(0xFF14)

#define NOTES 6
static const uint8_t tune[NOTES] = {0x20, 0x40, 0x60, 0x80, 0xA0, 0x60};
static uint8_t note, frames;

void music_update(void) __banked
{
    if (frames != 0) {
        frames--;
        return;
    }
    frames = 20;
    if (note < NOTES) {                /* the comparison bounds the index */
        AUD1ENV = 0xF3;
        AUD1LOW = tune[note];
        AUD1HIGH = 0x87;
        note++;
    } else {
        note = 0;
    }
}
