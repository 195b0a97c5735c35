/* A stock of things, each with a number: lines of standard input over an image of layout 3 in a file, which is made where it isn't there.
 *
 *     stock IMAGE       lines: add NAME N, change NAME N, find NAME, remove NAME, list, save, undo, check
 *
 * What was changed is there after `save`, all of it or, when it is stopped within, nothing; what stands behind the last save is gone at the end. */
#define _DEFAULT_SOURCE
#include <fcntl.h>
#include <stdio.h>
#include <string.h>
#include <sys/file.h>
#include <sys/stat.h>
#include <unistd.h>

#include "records.h"

enum { DEVICE = 1, BLOCKS = 32, SECTORS = SILGWYRAD_SECTORS(BLOCKS, 3), HEAD = 4, BUCKETS = 16, NAME = 12, SIZE = NAME + 8 };

static struct silgwyrad_store store;
static struct records stock;
static off_t place_of(uint32_t k) { return (off_t)k * SILGWYRAD_SECTOR; }

static int read_sector(void *file, uint32_t k, uint8_t out[SILGWYRAD_SECTOR]) {
    return pread(*(const int *)file, out, SILGWYRAD_SECTOR, place_of(k)) != SILGWYRAD_SECTOR;
}

static int write_sector(void *file, uint32_t k, const uint8_t bytes[SILGWYRAD_SECTOR]) {
    return pwrite(*(const int *)file, bytes, SILGWYRAD_SECTOR, place_of(k)) != SILGWYRAD_SECTOR;
}

/* (This program ends where one failed: docs/IMAGE.md, After a failed sync.) */
static int sync_all(void *file) { return fdatasync(*(const int *)file); }

/* Opens image and records, and makes them in a file without bytes. (One of which a stop ended the format is refused, and removed by hand.) */
static int begin(int file) {
    struct stat about;
    if (fstat(file, &about)) return SILGWYRAD_DEVICE;
    if (!about.st_size && (ftruncate(file, place_of(SECTORS)) || silgwyrad_format(DEVICE, SECTORS, BLOCKS))) return SILGWYRAD_DEVICE;
    int answer = silgwyrad_open(DEVICE, SECTORS, &store);
    if (!answer) answer = records_open(&stock, &store, HEAD);
    return answer == RECORDS_NO_HEAD ? records_make(&stock, &store, HEAD, BUCKETS, SIZE, NAME) : answer;
}

static void print(const uint8_t *record) { printf("%.*s %.*s\n", NAME, (const char *)record, SIZE - NAME, (const char *)record + NAME); }

static int list(void) {
    struct records_place place = {0, 0};
    uint8_t record[SIZE];
    int answer;
    while (!(answer = records_next(&stock, &place, record))) print(record);
    return answer == RECORDS_NOT_THERE ? 0 : answer;
}

/* Runs a line: a command and a record, name and number with blanks behind each. */
static int run(const char *command, const uint8_t *record) {
    uint8_t found[SIZE];
    if (!strcmp(command, "add")) return records_add(&stock, record);
    if (!strcmp(command, "change")) return records_change(&stock, record);
    if (!strcmp(command, "remove")) return records_remove(&stock, record);
    if (!strcmp(command, "list")) return list();
    if (!strcmp(command, "save")) return records_save(&stock);
    if (!strcmp(command, "check")) return records_check(&stock);
    if (!strcmp(command, "undo")) return records_undo(&stock), 0;
    const int answer = strcmp(command, "find") ? RECORDS_NOT_THERE : records_find(&stock, record, found);
    if (!answer) print(found);
    return answer;
}

int main(int argc, char **argv) {
    int file = argc == 2 ? open(argv[1], O_RDWR | O_CREAT | O_CLOEXEC, 0666) : -1, answer;
    const struct silgwyrad_device device = {&file, read_sector, write_sector, sync_all};
    char line[80], command[8], name[NAME + 1], number[SIZE - NAME + 1], text[SIZE + 1];
    if (argc != 2) return fprintf(stderr, "usage: stock IMAGE\n"), 2;
    if (file < 0 || flock(file, LOCK_EX | LOCK_NB)) return perror(argv[1]), 2;
    silgwyrad_use_device(DEVICE, &device);
    answer = begin(file);
    while (!answer && fgets(line, sizeof line, stdin)) {
        name[0] = number[0] = 0;
        if (sscanf(line, "%7s %12s %8s", command, name, number) < 1) continue;
        snprintf(text, sizeof text, "%-12s%-8s", name, number);
        const int said = run(command, (const uint8_t *)text);
        if (said == SILGWYRAD_DEVICE) answer = said;
        printf("%s: %s\n", command, records_text(said));
        fflush(stdout);
    }
    if (answer) fprintf(stderr, "stock: %s\n", records_text(answer));
    return answer;
}
