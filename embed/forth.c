/* A Forth system on standard input and output, over an image in a file, or over blank blocks in memory.
 *
 *     forth [IMAGE]
 *
 * An image is made by `forth83 new --layout 3`, or by the logger beside this file. It is locked while it is open, as forth83 does it. */
#define _DEFAULT_SOURCE
#include <errno.h>
#include <fcntl.h>
#include <stdio.h>
#include <stdlib.h>
#include <string.h>
#include <sys/file.h>
#include <sys/stat.h>
#include <unistd.h>

#include "silgwyrad.h"

enum { DEVICE = 1, CONSOLE = 2, BLOCKS = 32, SECTORS = SILGWYRAD_SECTORS(BLOCKS, 2), STEPS = 1000000 };

/* A file of sectors, of as many as its image has by either layout. After a sync that failed the system may have given up bytes and would answer the next one with success: so
 * each later one fails too. */
struct file {
    int number;
    int sync_failed;
};

/* Moves a sector's bytes by pread or pwrite, again where a call moved a part. */
static int move(int number, ssize_t (*call)(int, uint8_t *, size_t, off_t), uint32_t sector, uint8_t *bytes) {
    size_t done = 0;
    while (done < SILGWYRAD_SECTOR) {
        ssize_t n = call(number, bytes + done, SILGWYRAD_SECTOR - done, (off_t)sector * SILGWYRAD_SECTOR + (off_t)done);
        if (n < 0 && errno == EINTR) continue;
        if (n <= 0) return 1;
        done += (size_t)n;
    }
    return 0;
}

static ssize_t call_pread(int number, uint8_t *bytes, size_t n, off_t at) { return pread(number, bytes, n, at); }
static ssize_t call_pwrite(int number, uint8_t *bytes, size_t n, off_t at) { return pwrite(number, bytes, n, at); }

static int read_file(void *context, uint32_t sector, uint8_t out[SILGWYRAD_SECTOR]) {
    const struct file *file = context;
    return move(file->number, call_pread, sector, out);
}

static int write_file(void *context, uint32_t sector, const uint8_t bytes[SILGWYRAD_SECTOR]) {
    const struct file *file = context;
    uint8_t copy[SILGWYRAD_SECTOR];
    memcpy(copy, bytes, sizeof copy);
    return move(file->number, call_pwrite, sector, copy);
}

static int sync_file(void *context) {
    struct file *file = context;
    if (!file->sync_failed) file->sync_failed = fdatasync(file->number) != 0;
    return file->sync_failed;
}

/* In memory no write spoils another sector, so the image there has layout 2. */
static uint8_t memory[SECTORS][SILGWYRAD_SECTOR];

static int read_memory(void *context, uint32_t sector, uint8_t out[SILGWYRAD_SECTOR]) {
    (void)context;
    memcpy(out, memory[sector], SILGWYRAD_SECTOR);
    return 0;
}

static int write_memory(void *context, uint32_t sector, const uint8_t bytes[SILGWYRAD_SECTOR]) {
    (void)context;
    memcpy(memory[sector], bytes, SILGWYRAD_SECTOR);
    return 0;
}

static int sync_memory(void *context) {
    (void)context;
    return 0;
}

static int key(void *context) {
    (void)context;
    int byte = getchar();
    if (byte != EOF) return byte;
    return ferror(stdin) ? -2 : -1;
}

static int emit(void *context, const uint8_t *bytes, size_t n) {
    (void)context;
    return fwrite(bytes, 1, n, stdout) != n || fflush(stdout);
}

/* Opens an image; answers how many sectors it has, or 0 where it can't be opened. */
static uint32_t open_image(const char *name, struct file *file) {
    struct stat about;
    file->number = open(name, O_RDWR | O_CLOEXEC);
    if (file->number < 0 || flock(file->number, LOCK_EX | LOCK_NB) || fstat(file->number, &about)) return 0;
    if (about.st_size % SILGWYRAD_SECTOR || about.st_size / SILGWYRAD_SECTOR > UINT32_MAX) return 0;
    return (uint32_t)(about.st_size / SILGWYRAD_SECTOR);
}

static int ended(uint8_t answer) {
    if (answer) fprintf(stderr, "forth: %s\n", silgwyrad_text(answer));
    return answer;
}

int main(int argc, char **argv) {
    struct file file = {0};
    const struct silgwyrad_device on_file = {&file, read_file, write_file, sync_file};
    const struct silgwyrad_device in_memory = {NULL, read_memory, write_memory, sync_memory};
    const struct silgwyrad_console console = {NULL, key, emit};
    uint32_t sectors = SECTORS;
    silgwyrad_use_console(CONSOLE, &console);
    if (argc > 1) {
        sectors = open_image(argv[1], &file);
        if (!sectors) return fprintf(stderr, "forth: %s can't be opened\n", argv[1]), 1;
        silgwyrad_use_device(DEVICE, &on_file);
    } else {
        silgwyrad_use_device(DEVICE, &in_memory);
        uint8_t answer = silgwyrad_format(DEVICE, sectors, BLOCKS);
        if (answer) return ended(answer);
    }
    return ended(silgwyrad_run(DEVICE, sectors, CONSOLE, CONSOLE, STEPS));
}
