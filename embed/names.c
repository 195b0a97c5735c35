/* What the header names, in C99 as in C++17, and host.c and heap.c in the language in which this is compiled: blocks and a session over a disk in memory,
 * by either layout.
 *
 *     names       prints each answer's text; its last line is `names: well` */
#include <stdio.h>
#include <string.h>

#include "silgwyrad.h"

#if SILGWYRAD_SECTORS(32, 3) != 544 || SILGWYRAD_SECTORS(32, 2) != 131 || SILGWYRAD_SECTORS(32, 4) != 0 || SILGWYRAD_BLOCK != 2 * SILGWYRAD_SECTOR
#error "the numbers of docs/IMAGE.md are others"
#endif

enum { DEVICE = 1, CONSOLE = 2, BLOCKS = 32, SECTORS = SILGWYRAD_SECTORS(BLOCKS, 3), STEPS = 1000, REPLY = 64 };

static uint8_t disk[SECTORS][SILGWYRAD_SECTOR];

static int read_sector(void *context, uint32_t k, uint8_t out[SILGWYRAD_SECTOR]) {
    (void)context;
    if (k < SECTORS) memcpy(out, disk[k], SILGWYRAD_SECTOR);
    return k >= SECTORS;
}

static int write_sector(void *context, uint32_t k, const uint8_t bytes[SILGWYRAD_SECTOR]) {
    (void)context;
    if (k < SECTORS) memcpy(disk[k], bytes, SILGWYRAD_SECTOR);
    return k >= SECTORS;
}

static int sync_all(void *context) {
    (void)context;
    return 0;
}

/* What is typed, how far, and what came. */
struct typed {
    const char *line;
    size_t at, n;
    char reply[REPLY];
};

static int key(void *context) {
    struct typed *typed = (struct typed *)context;
    return typed->line[typed->at] ? typed->line[typed->at++] : -1;
}

static int emit(void *context, const uint8_t *bytes, size_t n) {
    struct typed *typed = (struct typed *)context;
    if (n >= REPLY - typed->n) return 1;
    memcpy(typed->reply + typed->n, bytes, n);
    typed->n += n;
    return 0;
}

/* Whether a session finds what was saved, and a read what the session saved. */
static int are_shared(uint32_t sectors) {
    struct typed typed = {"5 BLOCK @ .  6 5 BLOCK ! UPDATE SAVE-BUFFERS\n", 0, 0, ""};
    const struct silgwyrad_console console = {&typed, key, emit};
    struct silgwyrad_store store;
    const uint16_t block = 5;
    uint8_t bytes[SILGWYRAD_BLOCK] = {7};
    silgwyrad_use_console(CONSOLE, &console);
    return !silgwyrad_format(DEVICE, sectors, BLOCKS) && !silgwyrad_save(DEVICE, sectors, &block, 1, bytes, sizeof bytes)
        && !silgwyrad_run(DEVICE, sectors, CONSOLE, CONSOLE, STEPS) && !strcmp(typed.reply, "7  ok\n")
        && !silgwyrad_open(DEVICE, sectors, &store) && !silgwyrad_read_open(&store, block, bytes, sizeof bytes) && bytes[0] == 6;
}

int main(void) {
    const struct silgwyrad_device device = {NULL, read_sector, write_sector, sync_all};
    uint16_t blocks = BLOCKS;
    int is_well, answer;
    silgwyrad_use_device(DEVICE, &device);
    for (answer = SILGWYRAD_DONE; answer <= SILGWYRAD_NOT_OPEN + 1; answer++) printf("%d: %s\n", answer, silgwyrad_text(answer));
    is_well = are_shared(SILGWYRAD_SECTORS(blocks, 2)) && are_shared(SILGWYRAD_SECTORS(blocks, 3));
    printf("names: %s, version %s\n", is_well ? "well" : "NOT WELL", SILGWYRAD_VERSION);
    return !is_well || SILGWYRAD_VERSION_NUMBER < 100;
}
