/* Blocks on a NOR flash, which is erased by units of 4,096 bytes: a sector is written by reading its unit, erasing it, and programming it
 * again. Where the power fails meanwhile, all eight sectors of the unit are lost. An image of layout 3 bears that, since each unit is a page
 * of it; one of layout 2 doesn't.
 *
 *     flash [IMAGE]     over an image in a file, which is left as it is, or over a new one of layout 2
 *
 * It tries that: a save of two blocks is stopped at each moment of each write, and each recovery of what is left in the same way. By layout 3
 * both blocks then have to hold the old number or both the new one, and each other block its own bytes; by layout 2 some image has to lose one. */
#include <setjmp.h>
#include <stdio.h>
#include <string.h>

#include "silgwyrad.h"

enum { DEVICE = 1, BLOCKS = 32, UNIT_BYTES = 4096, IN_UNIT = UNIT_BYTES / SILGWYRAD_SECTOR };
enum { OLDER_SECTORS = SILGWYRAD_SECTORS(BLOCKS, 2), NEWER_SECTORS = SILGWYRAD_SECTORS(BLOCKS, 3), UNITS = NEWER_SECTORS / IN_UNIT, NEVER = -1 };

/* What the flash holds, and the moment at which the power fails. */
static struct flash {
    uint8_t units[UNITS][UNIT_BYTES];
    long moments, stop_at;
} flash;
static uint32_t sectors;
static jmp_buf cut;

static void pass_moment(void) {
    if (flash.moments++ == flash.stop_at) longjmp(cut, 1);
}

static void erase(uint32_t unit) {
    pass_moment();
    memset(flash.units[unit], 0xFF, UNIT_BYTES);
    pass_moment();
}

/* A bit is programmed from 1 to 0 alone. */
static void program(uint32_t unit, const uint8_t bytes[UNIT_BYTES]) {
    for (int i = 0; i < UNIT_BYTES; i++) {
        if (i == UNIT_BYTES / 2) pass_moment();
        flash.units[unit][i] &= bytes[i];
    }
}

static int read_sector(void *context, uint32_t sector, uint8_t out[SILGWYRAD_SECTOR]) {
    (void)context;
    memcpy(out, flash.units[sector / IN_UNIT] + sector % IN_UNIT * SILGWYRAD_SECTOR, SILGWYRAD_SECTOR);
    return 0;
}

static int write_sector(void *context, uint32_t sector, const uint8_t bytes[SILGWYRAD_SECTOR]) {
    uint8_t unit[UNIT_BYTES];
    (void)context;
    memcpy(unit, flash.units[sector / IN_UNIT], UNIT_BYTES);
    memcpy(unit + sector % IN_UNIT * SILGWYRAD_SECTOR, bytes, SILGWYRAD_SECTOR);
    erase(sector / IN_UNIT);
    program(sector / IN_UNIT, unit);
    return 0;
}

/* What was programmed stays. */
static int sync_all(void *context) {
    (void)context;
    return 0;
}

enum { OLD = 'O', NEW = 'N' };

static const uint16_t both[2] = {2, 3};

static uint8_t save(int byte) {
    uint8_t bytes[2 * SILGWYRAD_BLOCK];
    memset(bytes, byte, sizeof bytes);
    return silgwyrad_save(DEVICE, sectors, both, 2, bytes, sizeof bytes);
}

/* Each block holds a byte of its own, by its number. */
static uint8_t save_all(void) {
    static uint8_t bytes[BLOCKS][SILGWYRAD_BLOCK];
    uint16_t blocks[BLOCKS];
    for (uint16_t b = 0; b < BLOCKS; b++) {
        blocks[b] = b;
        memset(bytes[b], b, SILGWYRAD_BLOCK);
    }
    return silgwyrad_save(DEVICE, sectors, blocks, BLOCKS, bytes[0], sizeof bytes);
}

static int holds(uint16_t block, int byte) {
    uint8_t bytes[SILGWYRAD_BLOCK], wanted[SILGWYRAD_BLOCK];
    memset(wanted, byte, SILGWYRAD_BLOCK);
    return !silgwyrad_read(DEVICE, sectors, block, bytes, SILGWYRAD_BLOCK) && !memcmp(bytes, wanted, SILGWYRAD_BLOCK);
}

struct tally {
    long stops, images, olds, news, lost;
};

/* Looks at an image that a stop left, once it is recovered. */
static void judge(struct tally *tally) {
    flash.stop_at = NEVER;
    const int is_old = holds(2, OLD) && holds(3, OLD), is_new = holds(2, NEW) && holds(3, NEW);
    int is_lost = !is_old && !is_new;
    for (uint16_t b = 0; b < BLOCKS; b++)
        if (b != both[0] && b != both[1] && !holds(b, b)) is_lost = 1;
    tally->images++;
    tally->lost += is_lost;
    tally->olds += is_old && !is_lost;
    tally->news += is_new && !is_lost;
}

/* Runs a call on a copy of the flash until its power fails at a moment; answers whether it ended before. */
static int ends(const struct flash *start, long at, uint8_t (*call)(void)) {
    flash = *start;
    flash.moments = 0;
    flash.stop_at = at;
    if (setjmp(cut)) return 0;
    call();
    return 1;
}

static uint8_t save_new(void) { return save(NEW); }
static uint8_t recover(void) { return silgwyrad_recover(DEVICE, sectors); }

static struct tally stop_everywhere(void) {
    static struct flash start, left;
    struct tally tally = {0};
    start = flash;
    while (!ends(&start, tally.stops, save_new)) {
        tally.stops++;
        left = flash;
        for (long at = 0; !ends(&left, at, recover); at++) judge(&tally);
        judge(&tally);
    }
    return tally;
}

/* Takes an image of 32 blocks from a file, or makes one. Answers whether it has layout 3, or less than 0 where there is none. */
static int take_image(const char *name) {
    FILE *file = name ? fopen(name, "rb") : NULL;
    size_t n = file ? fread(flash.units, 1, sizeof flash.units, file) : 0;
    if (file) fclose(file);
    sectors = name ? (uint32_t)(n / SILGWYRAD_SECTOR) : OLDER_SECTORS;
    if ((!name && silgwyrad_format(DEVICE, sectors, BLOCKS)) || save_all() || save(OLD)) return -1;
    return sectors == NEWER_SECTORS;
}

int main(int argc, char **argv) {
    const struct silgwyrad_device device = {NULL, read_sector, write_sector, sync_all};
    flash.stop_at = NEVER;
    silgwyrad_use_device(DEVICE, &device);
    const int is_newer = take_image(argc > 1 ? argv[1] : NULL);
    if (is_newer < 0) return printf("no image: NOT WELL\n"), 1;
    const struct tally tally = stop_everywhere();
    const int is_well = is_newer == (tally.lost == 0);
    printf("stops %ld, images %ld (%ld old, %ld new, %ld that lost a block)\n", tally.stops, tally.images, tally.olds, tally.news, tally.lost);
    printf("layout %d %s on such a flash: %s\n", 2 + is_newer, is_newer ? "loses nothing" : "loses blocks", is_well ? "well" : "NOT WELL");
    return !is_well;
}
