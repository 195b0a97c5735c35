/* A Cortex-M3 on Arm's MPS2 board (AN385): a UART as console, a lamp and a clock of the board's own. The board has no disk: `disk.img` of
 * the emulator's folder is taken for one. */
#include "board.h"
#include "cortex.h"
#include "registers.h"

enum {
    CONSOLE = 0x40004000,
    CONSOLE_STATUS = CONSOLE + 4,
    STATUS_BUSY = 1, /* no byte may be sent yet */
    STATUS_FULL = 2, /* a byte was typed */
    CONSOLE_CONTROL = CONSOLE + 8,
    CAN_SEND = 1,
    CAN_HEAR = 2,
    CONSOLE_DIVIDER = CONSOLE + 16,
    LEAST_DIVIDER = 16
};

enum { LAMPS = 0x40028000, COUNTER = 0x40028018, COUNTER_DIVIDER = 0x4002801C, TICKS_OF_MILLISECOND = 25000 };

enum { OPEN = 1, CLOSE = 2, WRITE = 5, READ = 6, SEEK = 10, FOR_READING_AND_WRITING = 3 };

static int file;

static uint32_t word_of(const void *place) { return (uint32_t)(uintptr_t)place; }

static void open_disk(void) {
    static const char name[] = "disk.img";
    const uint32_t words[3] = {word_of(name), FOR_READING_AND_WRITING, sizeof name - 1};
    file = ask_emulator(OPEN, words);
}

void board_begin(void) {
    *word_at(CONSOLE_DIVIDER) = LEAST_DIVIDER;
    *word_at(CONSOLE_CONTROL) = CAN_SEND | CAN_HEAR;
    *word_at(COUNTER_DIVIDER) = TICKS_OF_MILLISECOND - 1;
    open_disk();
}

/* Moves a sector's bytes, and answers 0 where it did. The emulator's answer counts the bytes that weren't moved. */
static int move(int operation, uint32_t sector, const void *bytes) {
    const uint32_t to[2] = {(uint32_t)file, sector * SECTOR_BYTES};
    const uint32_t words[3] = {(uint32_t)file, word_of(bytes), SECTOR_BYTES};
    return ask_emulator(SEEK, to) || ask_emulator(operation, words);
}

int board_read(uint32_t sector, uint8_t out[SECTOR_BYTES]) { return move(READ, sector, out); }

int board_write(uint32_t sector, const uint8_t bytes[SECTOR_BYTES]) { return move(WRITE, sector, bytes); }

/* What the emulator has taken of the file stays, whatever becomes of the board; closing tells whether it has. After a sync that failed each later one does. */
int board_sync(void) {
    static int has_failed;
    const uint32_t words[1] = {(uint32_t)file};
    if (ask_emulator(CLOSE, words)) has_failed = 1;
    open_disk();
    return has_failed || file < 0;
}

uint8_t board_key(void) {
    while (!(*word_at(CONSOLE_STATUS) & STATUS_FULL)) {
    }
    return (uint8_t)*word_at(CONSOLE);
}

void board_emit(uint8_t byte) {
    while (*word_at(CONSOLE_STATUS) & STATUS_BUSY) {
    }
    *word_at(CONSOLE) = byte;
}

uint32_t board_milliseconds(void) { return *word_at(COUNTER); }

void board_lamp(int is_on) { *word_at(LAMPS) = is_on != 0; }
