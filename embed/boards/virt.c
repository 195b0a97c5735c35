/* QEMU's RISC-V machine `virt`: a 16550 as console, a virtio block device as disk, which flushes where it is told to sync. */
#include <stddef.h>

#include "board.h"
#include "registers.h"

enum {
    CONSOLE = 0x10000000,
    CONSOLE_STATUS = CONSOLE + 5,
    STATUS_FULL = 1,  /* a byte was typed */
    STATUS_FREE = 32, /* a byte may be sent */
    CLOCK = 0x0200bff8, /* counts at 10 MHz */
    TICKS_OF_MILLISECOND = 10000,
    POWER = 0x00100000,
    POWER_OFF = 0x5555,
    POWER_FAILED = 0x3333, /* with a status in the upper half */
    POWER_RESET = 0x7777
};

/* Virtio's slots for devices, and the registers of each (Virtual I/O Device, version 1.1, 4.2.2). */
enum {
    SLOTS = 0x10001000,
    SLOT_BYTES = 0x1000,
    SLOT_COUNT = 8,
    MAGIC = 0x000,
    VERSION = 0x004,
    DEVICE_ID = 0x008,
    FEATURES = 0x020,
    FEATURES_HALF = 0x024,
    QUEUE = 0x030,
    QUEUE_SIZE = 0x038,
    QUEUE_READY = 0x044,
    NOTIFY = 0x050,
    STATUS = 0x070,
    DESCRIPTORS = 0x080,
    AVAILABLE = 0x090,
    USED = 0x0a0,
    IS_VIRTIO = 0x74726976,
    IS_VERSION = 2,
    IS_BLOCK_DEVICE = 2,
    ACKNOWLEDGE = 1,
    DRIVER = 2,
    DRIVER_OK = 4,
    FEATURES_OK = 8,
    CAN_FLUSH = 1 << 9, /* of the features' lower half */
    IS_MODERN = 1       /* of the upper half */
};

/* A request is a chain of three parts: what is wanted, the sector's bytes, and a byte that says how it went. */
enum { PARTS = 4, NEXT = 1, DEVICE_WRITES = 2, READ = 0, WRITE = 1, FLUSH = 4, WELL = 0 };

static struct {
    uint64_t at;
    uint32_t size;
    uint16_t flags, next;
} parts[PARTS] __attribute__((aligned(16)));
static volatile struct {
    uint16_t flags, count, first[PARTS];
} asked __attribute__((aligned(2)));
static volatile struct {
    uint16_t flags, count;
    struct {
        uint32_t first, size;
    } done[PARTS];
} answered __attribute__((aligned(4)));

static struct {
    uint32_t kind, reserved;
    uint64_t sector;
} wanted;
static uint8_t moved[SECTOR_BYTES];
static volatile uint8_t went;

static uintptr_t disk;

static volatile uint32_t *of_disk(uint32_t number) { return word_at(disk + number); }

static void tell_place(uint32_t number, const volatile void *place) {
    *of_disk(number) = (uint32_t)(uintptr_t)place;
    *of_disk(number + 4) = (uint32_t)((uint64_t)(uintptr_t)place >> 32);
}

static void begin_disk(void) {
    *of_disk(STATUS) = 0;
    *of_disk(STATUS) = ACKNOWLEDGE | DRIVER;
    *of_disk(FEATURES_HALF) = 0;
    *of_disk(FEATURES) = CAN_FLUSH;
    *of_disk(FEATURES_HALF) = 1;
    *of_disk(FEATURES) = IS_MODERN;
    *of_disk(STATUS) = ACKNOWLEDGE | DRIVER | FEATURES_OK;
    *of_disk(QUEUE) = 0;
    *of_disk(QUEUE_SIZE) = PARTS;
    tell_place(DESCRIPTORS, parts);
    tell_place(AVAILABLE, &asked);
    tell_place(USED, &answered);
    *of_disk(QUEUE_READY) = 1;
    *of_disk(STATUS) = ACKNOWLEDGE | DRIVER | FEATURES_OK | DRIVER_OK;
}

void board_begin(void) {
    for (uintptr_t at = SLOTS; at < SLOTS + SLOT_COUNT * SLOT_BYTES; at += SLOT_BYTES) {
        if (*word_at(at + MAGIC) != IS_VIRTIO || *word_at(at + VERSION) != IS_VERSION || *word_at(at + DEVICE_ID) != IS_BLOCK_DEVICE) continue;
        disk = at;
        begin_disk();
        return;
    }
}

/* Does a request, and answers 0 where it went well. What is moved lies in `moved`; a flush moves nothing. */
static int do_request(uint32_t kind, uint32_t sector) {
    const uint16_t moves = kind == FLUSH ? 2 : 1;
    if (!disk) return 1;
    wanted.kind = kind;
    wanted.sector = sector;
    went = !WELL;
    parts[0].at = (uintptr_t)&wanted;
    parts[0].size = sizeof wanted;
    parts[0].flags = NEXT;
    parts[0].next = moves;
    parts[1].at = (uintptr_t)moved;
    parts[1].size = SECTOR_BYTES;
    parts[1].flags = kind == READ ? NEXT | DEVICE_WRITES : NEXT;
    parts[1].next = 2;
    parts[2].at = (uintptr_t)&went;
    parts[2].size = 1;
    parts[2].flags = DEVICE_WRITES;
    const uint16_t before = answered.count;
    asked.first[asked.count % PARTS] = 0;
    __sync_synchronize();
    asked.count++;
    __sync_synchronize();
    *of_disk(NOTIFY) = 0;
    while (answered.count == before) {
    }
    __sync_synchronize();
    return went != WELL;
}

int board_read(uint32_t sector, uint8_t out[SECTOR_BYTES]) {
    if (do_request(READ, sector)) return 1;
    for (int i = 0; i < SECTOR_BYTES; i++) out[i] = moved[i];
    return 0;
}

int board_write(uint32_t sector, const uint8_t bytes[SECTOR_BYTES]) {
    for (int i = 0; i < SECTOR_BYTES; i++) moved[i] = bytes[i];
    return do_request(WRITE, sector);
}

int board_sync(void) { return do_request(FLUSH, 0); }

uint8_t board_key(void) {
    while (!(*byte_at(CONSOLE_STATUS) & STATUS_FULL)) {
    }
    return *byte_at(CONSOLE);
}

void board_emit(uint8_t byte) {
    while (!(*byte_at(CONSOLE_STATUS) & STATUS_FREE)) {
    }
    *byte_at(CONSOLE) = byte;
}

uint32_t board_milliseconds(void) {
    return (uint32_t)(*(const volatile uint64_t *)(uintptr_t)CLOCK / TICKS_OF_MILLISECOND);
}

/* The machine has none. */
void board_lamp(int is_on) { (void)is_on; }

static _Noreturn void power(uint32_t word) {
    *word_at(POWER) = word;
    for (;;) {
    }
}

void board_reset(void) { power(POWER_RESET); }

void board_off(int status) { power(status ? (uint32_t)status << 16 | POWER_FAILED : POWER_OFF); }
