/* A session that saves two blocks with one number in both, stopped before each of its device calls, with every combination of lost,
 * kept and torn sectors. Each session is a process of its own, which ends where the power fails; the disk is memory that both
 * share. For Linux.
 *
 *     sessions                  over an image of layout 2, that it makes
 *     sessions --paged IMAGE    over the image of layout 3 in a file, on a disk in units of eight: a write may spoil its whole page */
#define _DEFAULT_SOURCE
#include <stdio.h>
#include <string.h>
#include <sys/mman.h>
#include <sys/wait.h>
#include <unistd.h>

#include "disk.h"

enum { DEVICE = 1, CONSOLE = 2, STEPS = 100000, OLD = 7, NEW = 8, MIXED = -1, REFUSED = -2, POWER_FAILED = 99 };

static const char *const both = ": BOTH 2 BLOCK 1024 2 PICK FILL UPDATE 3 BLOCK 1024 2 PICK FILL UPDATE DROP SAVE-BUFFERS ;";

static struct disk *disk;
static char text[200];
static const char *left_of_text;

static void power_fails(void) { _exit(POWER_FAILED); }

static int key(void *context) {
    (void)context;
    return *left_of_text ? (uint8_t)*left_of_text++ : -1;
}

static int emit(void *context, const uint8_t *bytes, size_t n) {
    (void)context;
    (void)bytes;
    return n == 0;
}

/* Runs a session that saves the number in both blocks; answers what it answered, or POWER_FAILED. */
static int run(int number) {
    snprintf(text, sizeof text, "%s\n%d BOTH\n", both, number);
    pid_t child = fork();
    if (child == 0) {
        left_of_text = text;
        _exit(silgwyrad_run(DEVICE, disk->sectors, CONSOLE, CONSOLE, STEPS));
    }
    int status = 0;
    waitpid(child, &status, 0);
    return WIFEXITED(status) ? WEXITSTATUS(status) : REFUSED;
}

/* The number that all bytes of both blocks hold. */
static int held(void) {
    uint8_t bytes[2][SILGWYRAD_BLOCK];
    for (uint16_t i = 0; i < 2; i++)
        if (silgwyrad_read(DEVICE, disk->sectors, (uint16_t)(i + 2), bytes[i], SILGWYRAD_BLOCK)) return REFUSED;
    if (memcmp(bytes[0], bytes[1], SILGWYRAD_BLOCK)) return MIXED;
    for (int i = 1; i < SILGWYRAD_BLOCK; i++)
        if (bytes[0][i] != bytes[0][0]) return MIXED;
    return bytes[0][0];
}

struct tally {
    long stops, images, olds, news;
};

/* Tries all outcomes of a session that was stopped; answers whether each is the old blocks or the new ones. */
static int all_or_none(const struct disk *stopped, struct tally *tally) {
    for (long outcome = 0; outcome < outcomes(stopped); outcome++) {
        *disk = *stopped;
        settle(disk, outcome);
        int number = held();
        if (number != OLD && number != NEW) return 0;
        tally->images++;
        number == OLD ? tally->olds++ : tally->news++;
    }
    return 1;
}

/* Makes the image, or begins with the one in a file. */
static int begins(const char *paged) {
    if (paged) return begins_paged(disk, paged);
    disk->sectors = SECTORS;
    disk->in_unit = 1;
    return silgwyrad_format(DEVICE, disk->sectors, BLOCKS) == SILGWYRAD_DONE;
}

int main(int argc, char **argv) {
    static struct disk start, stopped;
    struct tally tally = {0};
    disk = mmap(NULL, sizeof *disk, PROT_READ | PROT_WRITE, MAP_SHARED | MAP_ANONYMOUS, -1, 0);
    if (disk == MAP_FAILED) return perror("mmap"), 1;
    const struct silgwyrad_device device = device_of(disk);
    const struct silgwyrad_console console = {NULL, key, emit};
    stop = power_fails;
    silgwyrad_use_device(DEVICE, &device);
    silgwyrad_use_console(CONSOLE, &console);
    disk->stop_at = disk->fail_at = NEVER;
    if (!begins(argc == 3 && !strcmp(argv[1], "--paged") ? argv[2] : NULL) || run(OLD) || held() != OLD)
        return printf("no start: NOT WELL\n"), 1;
    start = *disk;
    start.calls = 0;
    for (;; tally.stops++) {
        *disk = start;
        disk->stop_at = tally.stops;
        int answer = run(NEW);
        if (answer == SILGWYRAD_DONE) break;
        stopped = *disk;
        if (answer != POWER_FAILED || !all_or_none(&stopped, &tally)) return printf("stop %ld: NOT WELL\n", tally.stops), 1;
    }
    disk->stop_at = NEVER;
    if (held() != NEW) return printf("a session that ended isn't kept: NOT WELL\n"), 1;
    printf("a session that loses power is all or none: well\nstops %ld, images %ld (%ld old, %ld new)\n", tally.stops, tally.images,
           tally.olds, tally.news);
    return 0;
}
