#include "disk.h"

#include <stdio.h>
#include <string.h>

enum fate { LOST, KEPT, TORN, FATES, IN_TURN = FATES };

void (*stop)(void);

/* Begins a call. Answers whether it fails. */
static int begin(struct disk *disk) {
    long call = disk->calls;
    if (call == disk->stop_at) stop();
    disk->calls++;
    return call == disk->fail_at;
}

static int read_sector(void *context, uint32_t sector, uint8_t out[SILGWYRAD_SECTOR]) {
    struct disk *disk = context;
    if (begin(disk) || sector >= disk->sectors) return 1;
    memcpy(out, disk->now[sector], SILGWYRAD_SECTOR);
    return 0;
}

static int write_sector(void *context, uint32_t sector, const uint8_t bytes[SILGWYRAD_SECTOR]) {
    struct disk *disk = context;
    if (begin(disk) || sector >= disk->sectors) return 1;
    memcpy(disk->now[sector], bytes, SILGWYRAD_SECTOR);
    memset(disk->unsynced + sector / disk->in_unit * disk->in_unit, 1, disk->in_unit);
    return 0;
}

static void make_all_stay(struct disk *disk) {
    memcpy(disk->synced, disk->now, sizeof disk->now);
    memset(disk->unsynced, 0, sizeof disk->unsynced);
}

static int sync_all(void *context) {
    struct disk *disk = context;
    if (begin(disk)) return 1;
    if (!disk->sync_lies) make_all_stay(disk);
    return 0;
}

struct silgwyrad_device device_of(struct disk *disk) {
    return (struct silgwyrad_device){.context = disk, .read = read_sector, .write = write_sector, .sync = sync_all};
}

int begins_paged(struct disk *disk, const char *file) {
    FILE *image = fopen(file, "rb");
    size_t had = image ? fread(disk->now, SILGWYRAD_SECTOR, PAGED_SECTORS, image) : 0;
    if (image) fclose(image);
    disk->sectors = PAGED_SECTORS;
    disk->in_unit = IN_PAGE;
    make_all_stay(disk);
    return had == PAGED_SECTORS;
}

/* How many outcomes a unit has that isn't synced. */
static int fates(const struct disk *disk) { return disk->in_unit == 1 ? FATES : FATES + 1; }

long outcomes(const struct disk *disk) {
    long all = 1;
    for (uint32_t k = 0; k < disk->sectors; k += disk->in_unit)
        if (disk->unsynced[k]) all *= fates(disk);
    return all;
}

static void tear(uint8_t bytes[SILGWYRAD_SECTOR], uint32_t k) {
    for (uint32_t i = 0; i < SILGWYRAD_SECTOR; i++) bytes[i] = (uint8_t)(i * 37 + k + 11);
}

static void meet(struct disk *disk, uint32_t k, enum fate fate) {
    if (fate == LOST) memcpy(disk->now[k], disk->synced[k], SILGWYRAD_SECTOR);
    if (fate == TORN) tear(disk->now[k], k);
}

void settle(struct disk *disk, long outcome) {
    for (uint32_t first = 0; first < disk->sectors; first += disk->in_unit) {
        if (!disk->unsynced[first]) continue;
        enum fate fate = (enum fate)(outcome % fates(disk));
        for (uint32_t k = first; k < first + disk->in_unit; k++) meet(disk, k, fate == IN_TURN ? (enum fate)(k % FATES) : fate);
        outcome /= fates(disk);
    }
    make_all_stay(disk);
    disk->calls = 0;
    disk->stop_at = disk->fail_at = NEVER;
}
