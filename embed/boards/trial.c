/* A save of two blocks that the board's reset stops, before each device call in turn; the recovery after it is stopped in the same way, and
 * recovered. Each byte of both blocks has to hold the old number or each the new one, and a third block what was saved to it at first. Where
 * the trial is, RAM keeps over the reset. Where the call before a stop of the save was no write, the disk is as the stop before left it: then
 * the recovery isn't stopped again.
 *
 * A reset loses nothing that the disk has taken. What a loss of power may leave of sectors that weren't synced is tried by ../blocks.c. */
#include "board.h"
#include "console.h"
#include "image.h"

enum { DEVICE = 1, BLOCKS = 32, MARK = 0x7147A15E, KEPT_BYTE = 'K' };

static const uint16_t both[2] = {2, 3}, third = 4;

static struct {
    uint32_t mark;         /* MARK where the trial is under way */
    uint32_t sectors;
    uint32_t stop;         /* the call of the save before which the board is reset */
    uint32_t stop_again;   /* the call of the recovery after it before which the board is reset once more */
    uint32_t is_recovery;  /* it is the recovery that was stopped */
    uint32_t has_written;  /* and it had written */
    uint32_t wrote_last;   /* the last call of the disk was a write */
    uint32_t is_as_before; /* the stop of the save left what the one before it did */
    uint32_t recoveries;   /* that were stopped */
    uint32_t olds, news;   /* stops of the save that left the old number, the new one */
    uint8_t old;           /* the new number is the next one */
} kept __attribute__((section(".kept")));

static uint32_t calls, reset_at;
static uint8_t bytes[2][SILGWYRAD_BLOCK];

static void begin_call(uint32_t is_write) {
    if (calls++ == reset_at) board_reset();
    kept.has_written |= is_write;
    kept.wrote_last = is_write;
}

static int read_sector(void *context, uint32_t sector, uint8_t out[SECTOR_BYTES]) {
    (void)context;
    begin_call(0);
    return board_read(sector, out);
}

static int write_sector(void *context, uint32_t sector, const uint8_t of_sector[SECTOR_BYTES]) {
    (void)context;
    begin_call(1);
    return board_write(sector, of_sector);
}

static int sync_all(void *context) {
    (void)context;
    begin_call(0);
    return board_sync();
}

/* Ends the trial. */
static _Noreturn void give_up(const char *why) {
    say(why);
    say(": NOT WELL, stop ");
    say_number(kept.stop);
    say(", in the recovery ");
    say_number(kept.stop_again);
    say("\n");
    board_off(1);
}

static void expect(int is_so, const char *what) {
    if (!is_so) give_up(what);
}

static void never_reset(void) { reset_at = UINT32_MAX; }

static void reset_before(uint32_t call) {
    calls = 0;
    kept.has_written = 0;
    reset_at = call;
}

static void fill(uint8_t number) {
    for (int i = 0; i < SILGWYRAD_BLOCK; i++) bytes[0][i] = bytes[1][i] = number;
}

static uint8_t save(uint8_t number) {
    fill(number);
    return silgwyrad_save(DEVICE, kept.sectors, both, 2, bytes[0], sizeof bytes);
}

/* Whether each byte of a block is this one. */
static int holds(uint16_t block, uint8_t byte) {
    if (silgwyrad_read(DEVICE, kept.sectors, block, bytes[0], SILGWYRAD_BLOCK)) return 0;
    for (int i = 0; i < SILGWYRAD_BLOCK; i++)
        if (bytes[0][i] != byte) return 0;
    return 1;
}

static int both_hold(uint8_t number) { return holds(both[0], number) && holds(both[1], number); }

/* Recovers, and answers whether the save had come before the stop; ends the trial where the blocks hold anything but all or none of it. */
static int is_new(void) {
    never_reset();
    expect(!silgwyrad_recover(DEVICE, kept.sectors), "the image is refused");
    expect(holds(third, KEPT_BYTE), "a block that wasn't saved is another one");
    if (both_hold(kept.old)) return 0;
    expect(both_hold((uint8_t)(kept.old + 1)), "a save is torn");
    return 1;
}

static void begin_trial(void) {
    const uint32_t found = image_sectors();
    kept.sectors = found ? found : sectors_for(BLOCKS);
    kept.stop = kept.stop_again = kept.is_recovery = kept.recoveries = kept.olds = kept.news = 0;
    kept.old = 0;
    never_reset();
    if (!found) expect(!silgwyrad_format(DEVICE, kept.sectors, BLOCKS), "no format");
    fill(KEPT_BYTE);
    expect(!silgwyrad_save(DEVICE, kept.sectors, &third, 1, bytes[0], SILGWYRAD_BLOCK), "no save");
    kept.mark = MARK;
}

/* Stops the recovery, and comes to the next stop of the save where the recovery ended before. */
static void try_recovery(void) {
    kept.is_recovery = 1;
    reset_before(kept.is_as_before ? UINT32_MAX : kept.stop_again);
    expect(!silgwyrad_recover(DEVICE, kept.sectors), "the image is refused");
    is_new() ? kept.news++ : kept.olds++;
    kept.stop++;
    kept.stop_again = 0;
}

/* What a stop left is recovered. Where the recovery had written nothing when it was stopped, the save's stop need not be made again. */
static void go_on(void) {
    if (kept.is_recovery) {
        kept.recoveries++;
        kept.stop_again++;
    } else if (kept.stop_again == 0) {
        kept.is_as_before = kept.stop > 0 && !kept.wrote_last;
    }
    if (kept.is_recovery && kept.has_written)
        is_new();
    else
        try_recovery();
}

static _Noreturn void finish(void) {
    never_reset();
    expect(both_hold((uint8_t)(kept.old + 1)), "a save that ended is lost");
    say("stops ");
    say_number(kept.stop);
    say(" (");
    say_number(kept.olds);
    say(" old, ");
    say_number(kept.news);
    say(" new), stopped recoveries ");
    say_number(kept.recoveries);
    say(": well\n");
    board_off(0);
}

int main(void) {
    static const struct silgwyrad_device device = {NULL, read_sector, write_sector, sync_all};
    silgwyrad_use_device(DEVICE, &device);
    if (kept.mark == MARK)
        go_on();
    else
        begin_trial();
    never_reset();
    kept.old = (uint8_t)(kept.old + 2);
    expect(!save(kept.old), "no save");
    kept.is_recovery = 0;
    reset_before(kept.stop);
    expect(!save((uint8_t)(kept.old + 1)), "no save");
    finish();
}
