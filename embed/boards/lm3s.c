/* A small Cortex-M3, the LM3S6965, on its evaluation board: UART 0 as console, and an SD card as disk, on SSI 0 as SPI, which pin 0 of
 * port D selects. */
#include "board.h"
#include "cortex.h"
#include "registers.h"

enum {
    SYSTEM_CLOCKS_1 = 0x400FE104, /* of UART 0 and SSI 0 */
    SYSTEM_CLOCKS_2 = 0x400FE108, /* of the ports A to D */
    PORT_D_PIN_0 = 0x40007004,
    PORT_D_DIRECTION = 0x40007400,
    PORT_D_DIGITAL = 0x4000751C
};

enum {
    CONSOLE = 0x4000C000,
    CONSOLE_STATUS = CONSOLE + 0x18,
    STATUS_EMPTY = 0x10, /* nothing was typed */
    STATUS_FULL = 0x20,  /* no byte may be sent yet */
    CONSOLE_FORMAT = CONSOLE + 0x2C,
    EIGHT_BITS_AND_QUEUES = 0x70,
    CONSOLE_CONTROL = CONSOLE + 0x30,
    SENDS_AND_HEARS = 0x301
};

enum {
    SPI_FORMAT = 0x40008000,
    EIGHT_BITS = 7,
    SPI_CONTROL = SPI_FORMAT + 4,
    SPI_ON = 2,
    SPI_DATA = SPI_FORMAT + 8,
    SPI_STATUS = SPI_FORMAT + 12,
    SPI_MAY_SEND = 2,
    SPI_HAS_HEARD = 4,
    SPI_DIVIDER = SPI_FORMAT + 16
};

/* Commands of a card and what it answers (SD Physical Layer, 7.3). */
enum {
    GO_IDLE = 0,
    SEND_CONDITION = 8,
    SEND_STATUS = 13,
    READ_BLOCK = 17,
    WRITE_BLOCK = 24,
    BEGIN = 41, /* after BEFORE_OWN */
    BEFORE_OWN = 55,
    READ_REGISTER = 58,
    IS_READY = 0,
    IS_IDLE = 1,
    IS_NO_ANSWER = 0x80,
    NOTHING = 0xFF,
    TOKEN = 0xFE, /* before a block's bytes */
    TAKEN = 5,    /* of the lower five bits, after them */
    TRIES = 100000
};

static int counts_sectors; /* a card of more than 2 GB does; others count bytes */
static int is_awake;

static void select_card(int is_selected) { *word_at(PORT_D_PIN_0) = !is_selected; }

/* Sends a byte, and answers the one that came meanwhile. */
static uint8_t swap(uint8_t byte) {
    while (!(*word_at(SPI_STATUS) & SPI_MAY_SEND)) {
    }
    *word_at(SPI_DATA) = byte;
    while (!(*word_at(SPI_STATUS) & SPI_HAS_HEARD)) {
    }
    return (uint8_t)*word_at(SPI_DATA);
}

static void skip(int bytes) {
    while (bytes--) swap(NOTHING);
}

/* Sends a command, and answers the first byte of the card's answer. */
static uint8_t command(uint8_t number, uint32_t argument, uint8_t check) {
    select_card(0);
    swap(NOTHING);
    select_card(1);
    swap(NOTHING);
    swap(0x40 | number);
    for (int shift = 24; shift >= 0; shift -= 8) swap((uint8_t)(argument >> shift));
    swap(check);
    uint8_t answer = NOTHING;
    for (int i = 0; i < 64 && answer & IS_NO_ANSWER; i++) answer = swap(NOTHING);
    return answer;
}

static uint8_t own_command(uint8_t number, uint32_t argument) {
    command(BEFORE_OWN, 0, 1);
    return command(number, argument, 1);
}

/* Wakes the card up: it idles, is told that larger cards are known here, and becomes ready. Of one that doesn't no sector is had. */
static void begin_card(void) {
    select_card(0);
    skip(10);
    for (int i = 0; i < TRIES && command(GO_IDLE, 0, 0x95) != IS_IDLE; i++) {
    }
    if (command(SEND_CONDITION, 0x1AA, 0x87) <= IS_IDLE) skip(4);
    int tries = 0;
    while (tries < TRIES && own_command(BEGIN, 1u << 30) != IS_READY) tries++;
    if (tries == TRIES || command(READ_REGISTER, 0, 1) > IS_IDLE) return;
    counts_sectors = (swap(NOTHING) & 0x40) != 0;
    skip(3);
    is_awake = 1;
}

void board_begin(void) {
    *word_at(SYSTEM_CLOCKS_1) |= 0x11;
    *word_at(SYSTEM_CLOCKS_2) |= 0x0F;
    *word_at(PORT_D_DIRECTION) |= 1;
    *word_at(PORT_D_DIGITAL) |= 1;
    *word_at(CONSOLE_FORMAT) = EIGHT_BITS_AND_QUEUES;
    *word_at(CONSOLE_CONTROL) = SENDS_AND_HEARS;
    *word_at(SPI_CONTROL) = 0;
    *word_at(SPI_DIVIDER) = 2;
    *word_at(SPI_FORMAT) = EIGHT_BITS;
    *word_at(SPI_CONTROL) = SPI_ON;
    begin_card();
}

static uint32_t place_of(uint32_t sector) { return counts_sectors ? sector : sector * SECTOR_BYTES; }

static int waits_for(uint8_t byte) {
    for (int i = 0; i < TRIES; i++)
        if (swap(NOTHING) == byte) return 1;
    return 0;
}

int board_read(uint32_t sector, uint8_t out[SECTOR_BYTES]) {
    if (!is_awake || command(READ_BLOCK, place_of(sector), 1) != IS_READY || !waits_for(TOKEN)) return 1;
    for (int i = 0; i < SECTOR_BYTES; i++) out[i] = swap(NOTHING);
    skip(2);
    select_card(0);
    return 0;
}

/* The card says that it takes the bytes, is busy until it has written them, and tells then whether it could. */
int board_write(uint32_t sector, const uint8_t bytes[SECTOR_BYTES]) {
    if (!is_awake || command(WRITE_BLOCK, place_of(sector), 1) != IS_READY) return 1;
    swap(NOTHING);
    swap(TOKEN);
    for (int i = 0; i < SECTOR_BYTES; i++) swap(bytes[i]);
    skip(2);
    uint8_t said = NOTHING;
    for (int i = 0; i < TRIES && (said & 0x11) != 1; i++) said = swap(NOTHING);
    const int has_ended = waits_for(NOTHING);
    const int is_written = command(SEND_STATUS, 0, 1) == IS_READY && swap(NOTHING) == 0;
    select_card(0);
    return (said & 0x1F) != TAKEN || !has_ended || !is_written;
}

/* What the card is no longer busy with, it has written. */
int board_sync(void) { return 0; }

uint8_t board_key(void) {
    while (*word_at(CONSOLE_STATUS) & STATUS_EMPTY) {
    }
    return (uint8_t)*word_at(CONSOLE);
}

void board_emit(uint8_t byte) {
    while (*word_at(CONSOLE_STATUS) & STATUS_FULL) {
    }
    *word_at(CONSOLE) = byte;
}
