/* The smallest useful program: a log of readings that survives a loss of power.
 *
 *     logger IMAGE READING ..     adds readings, each in a save of its own, and prints the log
 *
 * Block 0 begins with the number of readings; each of the blocks 1 to 31 holds 256 of them, of 4 bytes. A reading and the
 * new number are saved together: so at any moment the number says how many readings there are, and each of them is whole. */
#define _DEFAULT_SOURCE
#include <fcntl.h>
#include <libgen.h>
#include <stdio.h>
#include <stdlib.h>
#include <sys/file.h>
#include <sys/stat.h>
#include <unistd.h>

#include "silgwyrad.h"

/* The image lies in a file, so it has layout 3: a file system writes pages of eight sectors, and a loss of power may spoil a whole one. */
enum { DEVICE = 1, BLOCKS = 32, SECTORS = SILGWYRAD_SECTORS(BLOCKS, 3), IN_BLOCK = 256 };

static const off_t IMAGE_BYTES = (off_t)SECTORS * SILGWYRAD_SECTOR;
static const uint32_t BLANKS = 0x20202020;

static int file;

/* An opening looks at all blocks, so there is one for all readings. */
static struct silgwyrad_store store;

static int read_sector(void *context, uint32_t k, uint8_t out[SILGWYRAD_SECTOR]) {
    (void)context;
    return pread(file, out, SILGWYRAD_SECTOR, (off_t)k * SILGWYRAD_SECTOR) != SILGWYRAD_SECTOR;
}

static int write_sector(void *context, uint32_t k, const uint8_t bytes[SILGWYRAD_SECTOR]) {
    (void)context;
    return pwrite(file, bytes, SILGWYRAD_SECTOR, (off_t)k * SILGWYRAD_SECTOR) != SILGWYRAD_SECTOR;
}

/* (After a sync that failed this program ends. One that went on would have to fail each later one too, as forth.c does. Before it is started again the system
 * has to let go of the file's pages: docs/IMAGE.md, After a failed sync.) */
static int sync_all(void *context) {
    (void)context;
    return fdatasync(file);
}

/* Both blocks of a save: the one with the number of readings, and the one that takes the next. */
static uint8_t bytes[2][SILGWYRAD_BLOCK];

static uint32_t number_at(const uint8_t *at) { return at[0] | (uint32_t)at[1] << 8 | (uint32_t)at[2] << 16 | (uint32_t)at[3] << 24; }

static void put_number(uint8_t *at, uint32_t n) {
    for (int i = 0; i < 4; i++) at[i] = (uint8_t)(n >> 8 * i);
}

/* Loads the block that holds a reading. */
static uint8_t load(uint32_t reading) {
    return silgwyrad_read_open(&store, (uint16_t)(1 + reading / IN_BLOCK), bytes[1], SILGWYRAD_BLOCK);
}

/* Adds a reading, in one save of two blocks. */
static uint8_t add(uint32_t value) {
    uint32_t count = number_at(bytes[0]);
    if (count >= (BLOCKS - 1) * IN_BLOCK) return SILGWYRAD_NO_BLOCK;
    uint8_t answer = load(count);
    if (answer) return answer;
    const uint16_t both[2] = {0, (uint16_t)(1 + count / IN_BLOCK)};
    put_number(bytes[1] + 4 * (count % IN_BLOCK), value);
    put_number(bytes[0], count + 1);
    return silgwyrad_save_open(&store, both, 2, bytes[0], sizeof bytes);
}

static uint8_t print_all(void) {
    for (uint32_t i = 0; i < number_at(bytes[0]); i++) {
        uint8_t answer = load(i);
        if (answer) return answer;
        printf("%u: %u\n", i, number_at(bytes[1] + 4 * (i % IN_BLOCK)));
    }
    return 0;
}

/* Whether no label was ever written: the first sector is zeros. (A stop that tears the first label leaves one that is refused.) */
static int is_new(void) {
    uint8_t label[SILGWYRAD_SECTOR];
    if (read_sector(NULL, 0, label)) return 0;
    for (int i = 0; i < SILGWYRAD_SECTOR; i++)
        if (label[i]) return 0;
    return 1;
}

/* Opens the image and reads how many readings there are. A new device is formatted, or one of which a stop ended the first format; its blocks are blanks,
 * and no reading is there yet. One of which the label has changed is refused, since its readings may be there. */
static uint8_t begin(void) {
    struct stat about;
    if (fstat(file, &about)) return SILGWYRAD_DEVICE;
    if (about.st_size == 0 && ftruncate(file, IMAGE_BYTES)) return SILGWYRAD_DEVICE;
    if (about.st_size != 0 && about.st_size != IMAGE_BYTES) return SILGWYRAD_BAD_SIZE;
    uint8_t answer = silgwyrad_open(DEVICE, SECTORS, &store);
    if (answer == SILGWYRAD_NO_LABEL && is_new()) {
        answer = silgwyrad_format(DEVICE, SECTORS, BLOCKS);
        if (!answer) answer = silgwyrad_open(DEVICE, SECTORS, &store);
    }
    if (!answer) answer = silgwyrad_read_open(&store, 0, bytes[0], SILGWYRAD_BLOCK);
    if (number_at(bytes[0]) == BLANKS) put_number(bytes[0], 0);
    return answer;
}

/* Opens the image, or makes an empty file, whose name a loss of power may take as long as its folder wasn't synced. The lock tells other programs that it is
 * in use: `forth83` then runs nothing over it, and copies no half save. */
static int open_image(char *name) {
    file = open(name, O_RDWR | O_CREAT | O_CLOEXEC, 0666);
    if (file < 0 || flock(file, LOCK_EX | LOCK_NB)) return -1;
    int folder = open(dirname(name), O_RDONLY | O_DIRECTORY | O_CLOEXEC);
    return folder < 0 || fsync(folder) || close(folder);
}

int main(int argc, char **argv) {
    const struct silgwyrad_device device = {NULL, read_sector, write_sector, sync_all};
    if (argc < 2) return fprintf(stderr, "usage: logger IMAGE READING ..\n"), 2;
    if (open_image(argv[1])) return perror(argv[1]), 2;
    silgwyrad_use_device(DEVICE, &device);
    uint8_t answer = begin();
    for (int i = 2; i < argc && !answer; i++) answer = add((uint32_t)strtoul(argv[i], NULL, 10));
    if (!answer) answer = print_all();
    if (!answer && (fflush(stdout) || ferror(stdout))) answer = SILGWYRAD_OUTPUT;
    if (answer) fprintf(stderr, "logger: %s\n", silgwyrad_text(answer));
    return answer;
}
