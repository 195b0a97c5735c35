/* Blocks in memory that lose power. A save of two blocks, with one number in both, is stopped before each of its device calls; then
 * each unsynced sector is lost, kept or torn, in every combination; then recovery is stopped before each of its calls, and all
 * that it had not synced is torn. Whatever came, both blocks have to hold the old number or both the new one.
 *
 * Then a device that lies: its syncs settle nothing. The same trial has to notice. And a save each of whose calls fails: it has to
 * say so, and to leave all or none.
 *
 *     blocks                  over an image of layout 2, that it makes
 *     blocks CALL             the power fails at that device call of a save alone, and what the blocks hold then is printed
 *     blocks --paged IMAGE    over the image of layout 3 in a file, on a disk in units of eight: a write may spoil its whole page */
#include <setjmp.h>
#include <stdio.h>
#include <stdlib.h>
#include <string.h>

#include "disk.h"

enum { DEVICE = 1, OLD = 7, NEW = 8, MIXED = -1, REFUSED = -2 };

static const uint16_t two_blocks[2] = {2, 3};
static struct disk disk;
static jmp_buf cut;

static void power_fails(void) { longjmp(cut, 1); }

static uint8_t save(int number) {
    uint8_t bytes[2 * SILGWYRAD_BLOCK];
    memset(bytes, number, sizeof bytes);
    return silgwyrad_save(DEVICE, disk.sectors, two_blocks, 2, bytes, sizeof bytes);
}

/* The number that all bytes of both blocks hold. */
static int held(void) {
    uint8_t bytes[2][SILGWYRAD_BLOCK];
    for (int i = 0; i < 2; i++)
        if (silgwyrad_read(DEVICE, disk.sectors, two_blocks[i], bytes[i], SILGWYRAD_BLOCK)) return REFUSED;
    if (memcmp(bytes[0], bytes[1], SILGWYRAD_BLOCK)) return MIXED;
    for (int i = 1; i < SILGWYRAD_BLOCK; i++)
        if (bytes[0][i] != bytes[0][0]) return MIXED;
    return bytes[0][0];
}

/* Runs a call on the disk until it ends or the power fails; answers whether it ended. */
static int ends(uint8_t (*call)(void), uint8_t *answer) {
    if (setjmp(cut)) return 0;
    *answer = call();
    return 1;
}

static uint8_t save_new(void) { return save(NEW); }
static uint8_t recover(void) { return silgwyrad_recover(DEVICE, disk.sectors); }

/* The outcome in which all that wasn't synced is torn. */
static long all_torn(const struct disk *stopped) {
    long torn = 0, fates = stopped->in_unit == 1 ? 3 : 4;
    for (long all = outcomes(stopped); all > 1; all /= fates) torn = torn * fates + 2;
    return torn;
}

struct tally {
    long stops, images, olds, news, most, recoveries;
};

/* Recovers a disk whose power came back, stopped before each call in turn, or by layout 3, where it writes nothing, before each 16th;
 * answers what the blocks hold, or MIXED where a stop changed that. */
static int held_after_recoveries(const struct disk *back, struct tally *tally) {
    disk = *back;
    int first = held();
    for (long at = 0;; at += back->in_unit == 1 ? 1 : 16) {
        uint8_t answer = 0;
        disk = *back;
        disk.stop_at = at;
        if (ends(recover, &answer)) return answer ? REFUSED : first;
        tally->recoveries++;
        settle(&disk, all_torn(&disk));
        if (held() != first) return MIXED;
    }
}

/* Tries all outcomes of a save that was stopped; answers whether each is the old blocks or the new ones. */
static int all_or_none(const struct disk *stopped, struct tally *tally) {
    static struct disk back;
    long all = outcomes(stopped);
    if (all > tally->most) tally->most = all;
    for (long outcome = 0; outcome < all; outcome++) {
        back = *stopped;
        settle(&back, outcome);
        back.sync_lies = 0;
        int number = held_after_recoveries(&back, tally);
        if (number != OLD && number != NEW) return 0;
        tally->images++;
        number == OLD ? tally->olds++ : tally->news++;
    }
    return 1;
}

/* A save stopped before each of its calls, with every outcome; answers the call at which something other than all or none came,
 * or NEVER. */
static long first_mixed(const struct disk *start, struct tally *tally) {
    static struct disk stopped;
    for (long at = 0;; at++) {
        uint8_t answer = 0;
        disk = *start;
        disk.stop_at = at;
        if (ends(save_new, &answer)) {
            disk.stop_at = NEVER;
            return answer || held() != NEW ? at : NEVER;
        }
        tally->stops++;
        stopped = disk;
        if (!all_or_none(&stopped, tally)) return at;
    }
}

/* A save each of whose calls fails once; answers how many calls that were, or NEVER where one wasn't told as a fault of the device or left a mixture. */
static long failures_told(const struct disk *start) {
    for (long at = 0;; at++) {
        disk = *start;
        disk.fail_at = at;
        uint8_t answer = save(NEW);
        if (disk.calls <= at) return answer == SILGWYRAD_DONE ? at : NEVER;
        if (answer != SILGWYRAD_DEVICE) return NEVER;
        disk.fail_at = NEVER;
        int number = held();
        if (number != OLD && number != NEW) return NEVER;
    }
}

/* Arguments that are refused leave the device alone, and what was to be filled as it was. */
static int are_refused(const struct disk *start) {
    uint8_t bytes[SILGWYRAD_BLOCK + 1];
    const uint16_t past_the_end = BLOCKS;
    memset(bytes, 5, sizeof bytes);
    disk = *start;
    return silgwyrad_read(DEVICE, disk.sectors, BLOCKS, bytes, SILGWYRAD_BLOCK) == SILGWYRAD_NO_BLOCK
        && silgwyrad_read(DEVICE, disk.sectors, 1, bytes, SILGWYRAD_BLOCK + 1) == SILGWYRAD_BAD_LENGTH
        && silgwyrad_read(DEVICE, disk.sectors - 2, 1, bytes, SILGWYRAD_BLOCK) == SILGWYRAD_BAD_SIZE
        && silgwyrad_save(DEVICE, disk.sectors, &past_the_end, 1, bytes, SILGWYRAD_BLOCK) == SILGWYRAD_NO_BLOCK
        && silgwyrad_save(DEVICE, disk.sectors, two_blocks, 2, bytes, SILGWYRAD_BLOCK) == SILGWYRAD_BAD_LENGTH
        && silgwyrad_recover(DEVICE, disk.sectors + 1) == SILGWYRAD_BAD_SIZE
        && silgwyrad_format(DEVICE, disk.sectors, BLOCKS - 1) == SILGWYRAD_BAD_SIZE
        && disk.calls == 0 && bytes[0] == 5 && bytes[SILGWYRAD_BLOCK] == 5;
}

/* What one stop leaves, with all that wasn't synced torn. */
static int show(const struct disk *start, long at) {
    uint8_t answer = 0;
    disk = *start;
    disk.stop_at = at;
    if (ends(save_new, &answer)) return printf("the save ended before call %ld\n", at), 1;
    settle(&disk, all_torn(&disk));
    int number = held();
    printf("power lost before call %ld: both blocks hold %d\n", at, number);
    return 0;
}

static int told(int is_well, const char *what) {
    printf("%s: %s\n", what, is_well ? "well" : "NOT WELL");
    return !is_well;
}

/* Makes the image, or begins with the one in a file; answers how much of it was not well. */
static int begin(const char *paged) {
    if (paged) return told(begins_paged(&disk, paged) && held() == ' ', "an image of layout 3 is taken");
    disk.sectors = SECTORS;
    disk.in_unit = 1;
    int failed = told(silgwyrad_recover(DEVICE, disk.sectors) == SILGWYRAD_NO_LABEL, "a disk that was never formatted is refused");
    return failed + told(!silgwyrad_format(DEVICE, disk.sectors, BLOCKS) && held() == ' ', "a format makes blank blocks");
}

int main(int argc, char **argv) {
    static struct disk start;
    const struct silgwyrad_device device = device_of(&disk);
    const char *paged = argc == 3 && !strcmp(argv[1], "--paged") ? argv[2] : NULL;
    stop = power_fails;
    silgwyrad_use_device(DEVICE, &device);
    disk.stop_at = disk.fail_at = NEVER;
    int failed = begin(paged);
    failed += told(!save(OLD) && held() == OLD, "a save is read back");
    start = disk;
    start.calls = 0;
    if (argc == 2) return failed ? 1 : show(&start, strtol(argv[1], NULL, 10));
    failed += told(are_refused(&start), "refused arguments leave the device alone");
    struct tally tally = {0};
    failed += told(first_mixed(&start, &tally) == NEVER, "a save that loses power is all or none");
    printf("stops %ld, images %ld (%ld old, %ld new; at most %ld of one stop), stopped recoveries %ld\n", tally.stops, tally.images,
           tally.olds, tally.news, tally.most, tally.recoveries);
    long calls = failures_told(&start);
    failed += told(calls == tally.stops, "a save of which a call fails says so");
    printf("calls that failed %ld\n", calls);
    struct tally lying = {0};
    start.sync_lies = 1;
    failed += told(first_mixed(&start, &lying) != NEVER, "a sync that lies is noticed");
    return failed ? 1 : 0;
}
