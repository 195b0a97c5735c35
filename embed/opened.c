/* An opening that stays, over a disk in memory: what its reads and saves cost, what closes it, and a save of two blocks that is stopped before each
 * of its device calls. After each stop each unsynced sector is lost, kept or torn, in every combination, and both blocks have to hold the old number
 * or both the new one.
 *
 *     opened                  over an image of layout 2, that it makes
 *     opened --paged IMAGE    over the image of layout 3 in a file, on a disk in units of eight: a write may spoil its whole page */
#include <setjmp.h>
#include <stdio.h>
#include <string.h>

#include "disk.h"

enum { DEVICE = 1, OLD = 7, NEW = 8, MIXED = -1, REFUSED = -2, CALLS_OF_A_READ = 2, TIMES = 6 };

static const uint16_t two_blocks[2] = {2, 3};
static struct disk disk;
static struct silgwyrad_store store;
static jmp_buf cut;

static void power_fails(void) { longjmp(cut, 1); }

static uint8_t open_store(void) { return silgwyrad_open(DEVICE, disk.sectors, &store); }

static uint8_t save(int number) {
    uint8_t bytes[2 * SILGWYRAD_BLOCK];
    memset(bytes, number, sizeof bytes);
    return silgwyrad_save_open(&store, two_blocks, 2, bytes, sizeof bytes);
}

/* The number that all bytes of both blocks hold, by reads of the open store, or by calls that open the image anew. */
static int held(int by_store) {
    uint8_t bytes[2][SILGWYRAD_BLOCK];
    for (int i = 0; i < 2; i++) {
        const uint16_t block = two_blocks[i];
        if (by_store ? silgwyrad_read_open(&store, block, bytes[i], SILGWYRAD_BLOCK) : silgwyrad_read(DEVICE, disk.sectors, block, bytes[i], SILGWYRAD_BLOCK))
            return REFUSED;
    }
    if (memcmp(bytes[0], bytes[1], SILGWYRAD_BLOCK)) return MIXED;
    for (int i = 1; i < SILGWYRAD_BLOCK; i++)
        if (bytes[0][i] != bytes[0][0]) return MIXED;
    return bytes[0][0];
}

static int told(int is_well, const char *what) {
    printf("%s: %s\n", what, is_well ? "well" : "NOT WELL");
    return !is_well;
}

/* The store isn't open: neither a read nor a save calls the device, and what was to be filled is as it was. */
static int is_not_open(void) {
    uint8_t bytes[SILGWYRAD_BLOCK];
    const long calls = disk.calls;
    memset(bytes, 5, sizeof bytes);
    return silgwyrad_read_open(&store, 1, bytes, sizeof bytes) == SILGWYRAD_NOT_OPEN && bytes[0] == 5 && save(NEW) == SILGWYRAD_NOT_OPEN
        && disk.calls == calls;
}

static int are_refused_unopened(void) {
    memset(&store, 0, sizeof store);
    int is_well = is_not_open() && !open_store() && held(1) == OLD;
    silgwyrad_close(&store);
    return is_well && is_not_open();
}

static int read_makes_calls(void) {
    uint8_t bytes[SILGWYRAD_BLOCK];
    if (open_store()) return 0;
    const long calls = disk.calls;
    return !silgwyrad_read_open(&store, two_blocks[0], bytes, sizeof bytes) && bytes[0] == OLD && disk.calls == calls + CALLS_OF_A_READ;
}

/* Arguments that are refused leave the device alone and the store open, but an opening that is refused opens none. */
static int are_refused(void) {
    uint8_t bytes[SILGWYRAD_BLOCK + 1];
    const uint16_t past_the_end = BLOCKS;
    memset(bytes, 5, sizeof bytes);
    if (open_store()) return 0;
    const long calls = disk.calls;
    return silgwyrad_read_open(&store, BLOCKS, bytes, SILGWYRAD_BLOCK) == SILGWYRAD_NO_BLOCK
        && silgwyrad_read_open(&store, 1, bytes, SILGWYRAD_BLOCK + 1) == SILGWYRAD_BAD_LENGTH
        && silgwyrad_save_open(&store, &past_the_end, 1, bytes, SILGWYRAD_BLOCK) == SILGWYRAD_NO_BLOCK
        && silgwyrad_save_open(&store, two_blocks, 2, bytes, SILGWYRAD_BLOCK) == SILGWYRAD_BAD_LENGTH
        && disk.calls == calls && bytes[0] == 5 && bytes[SILGWYRAD_BLOCK] == 5 && held(1) == OLD
        && silgwyrad_open(DEVICE, disk.sectors + 1, &store) == SILGWYRAD_BAD_SIZE && is_not_open();
}

/* Each call of a save fails in turn: it says so, the store isn't open any more, and opened again it has all or none. */
static int faults_close(const struct disk *start) {
    for (long at = 0;; at++) {
        disk = *start;
        if (open_store()) return 0;
        disk.calls = 0;
        disk.fail_at = at;
        const uint8_t answer = save(NEW);
        if (disk.calls <= at) return answer == SILGWYRAD_DONE;
        disk.fail_at = NEVER;
        if (answer != SILGWYRAD_DEVICE || !is_not_open() || open_store()) return 0;
        const int number = held(1);
        if (number != OLD && number != NEW) return 0;
    }
}

static int are_read_back(void) {
    if (open_store()) return 0;
    for (int number = 1; number <= TIMES; number++)
        if (save(number) || held(1) != number || held(0) != number) return 0;
    return 1;
}

struct tally {
    long stops, images, olds, news;
};

static int all_or_none(const struct disk *stopped, struct tally *tally) {
    static struct disk back;
    for (long outcome = 0; outcome < outcomes(stopped); outcome++) {
        back = *stopped;
        settle(&back, outcome);
        disk = back;
        const int number = held(0);
        if (number != OLD && number != NEW) return 0;
        tally->images++;
        number == OLD ? tally->olds++ : tally->news++;
    }
    return 1;
}

/* Runs a save until it ends or the power fails; answers whether it ended. */
static int ends(uint8_t *answer) {
    if (setjmp(cut)) return 0;
    *answer = save(NEW);
    return 1;
}

static int stops_leave_all_or_none(const struct disk *start, struct tally *tally) {
    static struct disk stopped;
    for (long at = 0;; at++) {
        uint8_t answer = 0;
        disk = *start;
        if (open_store()) return 0;
        disk.calls = 0;
        disk.stop_at = at;
        if (ends(&answer)) {
            disk.stop_at = NEVER;
            return !answer && held(1) == NEW;
        }
        tally->stops++;
        stopped = disk;
        if (!all_or_none(&stopped, tally)) return 0;
    }
}

/* Makes the image, or begins with the one in a file, and saves the old number. Answers whether that went well. */
static int begins(const char *paged) {
    if (paged && !begins_paged(&disk, paged)) return 0;
    if (!paged) {
        disk.sectors = SECTORS;
        disk.in_unit = 1;
        if (silgwyrad_format(DEVICE, disk.sectors, BLOCKS)) return 0;
    }
    return !open_store() && held(1) == ' ' && !save(OLD) && held(0) == OLD;
}

int main(int argc, char **argv) {
    static struct disk start;
    struct tally tally = {0};
    const struct silgwyrad_device device = device_of(&disk);
    stop = power_fails;
    silgwyrad_use_device(DEVICE, &device);
    disk.stop_at = disk.fail_at = NEVER;
    int failed = told(begins(argc == 3 && !strcmp(argv[1], "--paged") ? argv[2] : NULL), "a save to an open store is read back");
    start = disk;
    failed += told(are_refused_unopened(), "a store that isn't open is refused");
    failed += told(read_makes_calls(), "a read of an open store makes 2 calls");
    failed += told(are_refused(), "refused arguments leave the store open");
    failed += told(faults_close(&start), "a fault of the device closes the store");
    disk = start;
    failed += told(are_read_back(), "saves after each other are read back");
    failed += told(stops_leave_all_or_none(&start, &tally), "a save to an open store that loses power is all or none");
    printf("stops %ld, images %ld (%ld old, %ld new)\n", tally.stops, tally.images, tally.olds, tally.news);
    return failed ? 1 : 0;
}
