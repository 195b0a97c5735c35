/* What a board supplies to a firmware: a console of bytes, a disk of sectors of 512 bytes, a clock, a lamp, and a reset. One for blocks
 * alone, as lm3s.c, has no clock and no lamp. */
#ifndef BOARD_H
#define BOARD_H

#include <stdint.h>

enum { SECTOR_BYTES = 512 };

/* Wakes the devices up. start.c calls it before main. */
void board_begin(void);

uint8_t board_key(void); /* waits for the next byte that is typed */
void board_emit(uint8_t byte);

/* The calls of the disk answer 0 where they were done. */
int board_read(uint32_t sector, uint8_t out[SECTOR_BYTES]);
int board_write(uint32_t sector, const uint8_t bytes[SECTOR_BYTES]);
int board_sync(void);

uint32_t board_milliseconds(void); /* since the reset, or some other moment */
void board_lamp(int is_on);

_Noreturn void board_reset(void);
_Noreturn void board_off(int status); /* ends the emulator */

extern uint8_t stack_begin[], stack_end[]; /* by sections.ld */

int main(void);

#endif
