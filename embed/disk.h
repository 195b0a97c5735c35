/* A disk in memory whose power can fail before any of its calls, for trials. What follows a failure is as the disk model has it: each
 * sector that was written and not synced is lost, kept or torn. Where its units are pages of eight sectors, a write may spoil all of its
 * page: each such page is lost, kept or torn, or some sectors of it are each. */
#ifndef DISK_H
#define DISK_H

#include <stdint.h>

#include "silgwyrad.h"

enum { BLOCKS = 32, SECTORS = SILGWYRAD_SECTORS(BLOCKS, 2), PAGED_SECTORS = SILGWYRAD_SECTORS(BLOCKS, 3), IN_PAGE = 8, NEVER = -1 };

struct disk {
    uint32_t sectors, in_unit;                       /* SECTORS of a unit each, or PAGED_SECTORS in units of IN_PAGE */
    uint8_t now[PAGED_SECTORS][SILGWYRAD_SECTOR];    /* what a read gives */
    uint8_t synced[PAGED_SECTORS][SILGWYRAD_SECTOR]; /* what was there at the last sync */
    uint8_t unsynced[PAGED_SECTORS];                 /* by units, all sectors of a unit alike */
    int sync_lies;                                   /* a sync settles nothing and says that it was done: a trial has to notice */
    long calls;                                      /* that were begun */
    long stop_at;                                    /* the call before which the power fails, or NEVER */
    long fail_at;                                    /* the call that fails and does nothing, or NEVER */
};

/* The callbacks of the disk; `stop` is called where the power fails, and doesn't return. */
struct silgwyrad_device device_of(struct disk *disk);
extern void (*stop)(void);

/* The disk begins with the image of layout 3 in a file, in units of IN_PAGE. Answers whether the file has the bytes of one. */
int begins_paged(struct disk *disk, const char *file);

/* How many outcomes a loss of power now has: 3 for each unsynced sector, or 4 for each unsynced page. */
long outcomes(const struct disk *disk);

/* The power comes back: each unsynced sector is lost, kept or torn, by the digits of `outcome` to the base 3; each unsynced page by those to
 * the base 4, of which the last is that its sectors are lost, kept and torn in turn. */
void settle(struct disk *disk, long outcome);

#endif
