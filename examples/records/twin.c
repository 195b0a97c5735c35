/* Trial of the records in Forth, by those in C: a session over a disk in memory adds, changes and removes by chance and saves, and the power fails before each
 * of its device calls. Then each unsynced sector is lost, kept or torn, by chance; the records that C finds there are those of the last save that was answered,
 * or of the one that was under way, and its check finds nothing.
 *
 *     twin SCREEN ..      the library's basic, double and changing, and the four beside this file; its last line is `twin: well` */
#define _DEFAULT_SOURCE
#include <stdio.h>
#include <string.h>
#include <sys/mman.h>
#include <sys/wait.h>
#include <unistd.h>

#include "disk.h"
#include "records.h"

enum { DEVICE = 1, CONSOLE = 2, HEAD = 4, FIRST = 22, NAME = 12, SIZE = 20, KEYS = 12, ROUNDS = 8, IN_ROUND = 4, MOST_OUTCOMES = 8, STEPS = 1000000 };

/* What outlives a session that was stopped, since each is a process of its own. */
static struct outlives {
    struct disk disk;
    int replies, answer;
} *kept;

/* What is typed: the screens loaded, then rounds that end in a save; and by key the number that each save is to keep, 0 where there is none. */
static char typed[8192];
static const char *at;
static int keeps[ROUNDS + 1][KEYS];

static uint32_t chance_state = 5;

static uint32_t chance(uint32_t below) {
    chance_state = chance_state * 1103515245u + 12345u;
    return (chance_state >> 8) % below;
}

static void write_script(void) {
    char *to = typed;
    to += sprintf(to, ": THE-SCREENS 29 22 DO I LOAD LOOP ; THE-SCREENS\n");
    for (int round = 1; round <= ROUNDS; round++) {
        int *now = keeps[round];
        memcpy(now, keeps[round - 1], sizeof keeps[round]);
        for (int i = 0; i < IN_ROUND; i++) {
            const uint32_t key = chance(KEYS), number = 1 + chance(9999), is_removed = now[key] && chance(2);
            if (is_removed) to += sprintf(to, "REMOVE KEY%u ", key);
            else to += sprintf(to, "%s KEY%u %u ", now[key] ? "CHANGE" : "ADD", key, number);
            now[key] = is_removed ? 0 : (int)number;
        }
        to += sprintf(to, "SAVE-BUFFERS\n");
    }
}

static int key(void *context) {
    (void)context;
    return *at ? *at++ : -1;
}

/* A reply that ends in ` ok` counts, and no other one comes. */
static int emit(void *context, const uint8_t *bytes, size_t n) {
    (void)context;
    for (size_t i = 0; i < n; i++) kept->replies += bytes[i] == '\n';
    return 0;
}

static void power_fails(void) { _exit(0); }

/* Runs lines over the disk in a process of their own, up to their end or a stop. */
static void run(const char *lines) {
    kept->replies = 0;
    kept->answer = -1;
    const pid_t child = fork();
    if (!child) {
        at = lines;
        kept->answer = silgwyrad_run(DEVICE, kept->disk.sectors, CONSOLE, CONSOLE, STEPS);
        _exit(0);
    }
    if (child > 0) waitpid(child, NULL, 0);
}

/* Puts a screen into a block, its lines filled up with blanks. */
static int put(const char *name, uint16_t block) {
    uint8_t bytes[SILGWYRAD_BLOCK];
    char line[80];
    FILE *file = fopen(name, "r");
    memset(bytes, ' ', sizeof bytes);
    for (size_t i = 0; file && i < 16 && fgets(line, sizeof line, file); i++) memcpy(bytes + 64 * i, line, strcspn(line, "\n"));
    if (!file || fclose(file)) return 1;
    return silgwyrad_save(DEVICE, kept->disk.sectors, &block, 1, bytes, sizeof bytes);
}

static int begins(uint32_t sectors, uint32_t in_unit, char **names, int n) {
    memset(&kept->disk, 0, sizeof kept->disk);
    kept->disk.sectors = sectors;
    kept->disk.in_unit = in_unit;
    kept->disk.stop_at = kept->disk.fail_at = NEVER;
    int answer = silgwyrad_format(DEVICE, sectors, BLOCKS);
    for (int i = 0; i < n && !answer; i++) answer = put(names[i], (uint16_t)(FIRST + i));
    if (answer) return 0;
    run(": THE-SCREENS 29 22 DO I LOAD LOOP ; THE-SCREENS\nNEW-STOCK\n");
    return !kept->answer && kept->replies == 2;
}

/* Whether the image has what a save was to keep, or is broken. */
static int has(const int *wanted) {
    static struct silgwyrad_store store;
    static struct records records;
    uint16_t count = 0, due = 0;
    if (silgwyrad_open(DEVICE, kept->disk.sectors, &store) || records_open(&records, &store, HEAD) || records_check(&records)) return -1;
    for (int k = 0; k < KEYS; k++) {
        char name[NAME + 1], number[16], text[64];
        uint8_t found[SIZE];
        snprintf(name, sizeof name, "KEY%d", k);
        snprintf(number, sizeof number, "%d", wanted[k]);
        snprintf(text, sizeof text, "%-12s%-8s", name, number);
        const int answer = records_find(&records, (const uint8_t *)text, found);
        if (answer != (wanted[k] ? 0 : RECORDS_NOT_THERE) || (!answer && memcmp(found, text, SIZE))) return 0;
        due = (uint16_t)(due + (wanted[k] != 0));
    }
    return !records_count(&records, &count) && count == due;
}

static long olds, news;

static int is_kept(void) {
    static struct disk stopped;
    stopped = kept->disk;
    /* (the first reply is to the screens) */
    const int told = kept->replies > 1 ? kept->replies - 1 : 0;
    const long all = outcomes(&stopped), tried = all < MOST_OUTCOMES ? all : MOST_OUTCOMES;
    for (long i = 0; i < tried; i++) {
        kept->disk = stopped;
        settle(&kept->disk, tried == all ? i : (long)chance(1u << 16) * (long)chance(1u << 16) % all);
        if (has(keeps[told]) == 1) olds++;
        else if (told < ROUNDS && has(keeps[told + 1]) == 1) news++;
        else return 0;
    }
    return 1;
}

static int is_all_or_none(const char *name, uint32_t sectors, uint32_t in_unit, char **names, int n, int lies) {
    static struct disk start;
    if (!begins(sectors, in_unit, names, n)) return 0;
    start = kept->disk;
    olds = news = 0;
    for (long stops = 0;; stops++) {
        kept->disk = start;
        kept->disk.calls = 0;
        kept->disk.stop_at = stops;
        kept->disk.sync_lies = lies;
        run(typed);
        kept->disk.stop_at = NEVER;
        kept->disk.sync_lies = 0;
        if (!kept->answer) {
            printf("%s: %ld calls, %ld images (%ld old, %ld new)\n", name, stops, olds + news, olds, news);
            return kept->replies == ROUNDS + 1 && has(keeps[ROUNDS]) == 1 && news > 0;
        }
        if (kept->answer != -1 || !is_kept()) return 0;
    }
}

int main(int argc, char **argv) {
    const struct silgwyrad_console console = {NULL, key, emit};
    kept = (struct outlives *)mmap(NULL, sizeof *kept, PROT_READ | PROT_WRITE, MAP_SHARED | MAP_ANONYMOUS, -1, 0);
    if (kept == MAP_FAILED) return perror("twin"), 2;
    const struct silgwyrad_device device = device_of(&kept->disk);
    stop = power_fails;
    silgwyrad_use_device(DEVICE, &device);
    silgwyrad_use_console(CONSOLE, &console);
    write_script();
    const int is_well = is_all_or_none("layout 2", SECTORS, 1, argv + 1, argc - 1, 0)
        && is_all_or_none("layout 3", PAGED_SECTORS, IN_PAGE, argv + 1, argc - 1, 0);
    const int is_noticed = !is_all_or_none("a sync that lies", SECTORS, 1, argv + 1, argc - 1, 1);
    printf("twin: %s\n", is_well && is_noticed ? "well" : "NOT WELL");
    return !is_well || !is_noticed;
}
