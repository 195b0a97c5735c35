/* Trial of the records over a disk in memory, by layout 2 and 3: records are added, changed and removed by chance, and saved in each round, beside a model
 * in an array. The power fails before each device call of the whole, and each call fails in turn. Then each unsynced sector is lost, kept or torn, by chance;
 * opened again the records are those of the last save that was told, or of the one that was under way, and the check finds nothing.
 *
 *     trial         its last line is `records: well`; the disk that lies at a sync has to be found out */
#include <setjmp.h>
#include <stdio.h>
#include <string.h>

#include "disk.h"
#include "records.h"

enum { DEVICE = 1, HEAD = 3, BUCKETS = 5, SIZE = 200, KEY = 2, KEYS = 40, ROUNDS = 9, IN_ROUND = 6, MOST_OUTCOMES = 8 };

static struct disk disk;
static struct silgwyrad_store store;
static struct records records;
static jmp_buf cut;

static void power_fails(void) { longjmp(cut, 1); }

static uint32_t chance_state;

static uint32_t chance(uint32_t below) {
    chance_state = chance_state * 1103515245u + 12345u;
    return (chance_state >> 8) % below;
}

/* What a save is to keep: by key the number in a record, or 0 where there is none; as it was saved last, and as it is. */
static struct model {
    uint8_t of[KEYS];
} saved, now;

static void fill(uint8_t record[SIZE], uint32_t key, uint8_t number) {
    memset(record, number, SIZE);
    record[0] = (uint8_t)('A' + key % 7);
    record[1] = (uint8_t)key;
}

static int told(int is_well, const char *what) {
    printf("%s: %s\n", what, is_well ? "well" : "NOT WELL");
    return !is_well;
}

/* Whether the records are those of a model. */
static int are(const struct model *model) {
    uint8_t wanted[SIZE], found[SIZE];
    uint16_t count = 0, due = 0;
    for (uint32_t key = 0; key < KEYS; key++) {
        fill(wanted, key, model->of[key]);
        int answer = records_find(&records, wanted, found);
        if (answer != (model->of[key] ? 0 : RECORDS_NOT_THERE)) return 0;
        if (!answer && memcmp(found, wanted, SIZE)) return 0;
        due = (uint16_t)(due + (model->of[key] != 0));
    }
    return !records_count(&records, &count) && count == due;
}

/* One change by chance, in the records and in the model. Answers that of the records, or -1 where it isn't the one that the model tells. */
static int step(void) {
    uint8_t record[SIZE];
    const uint32_t key = chance(KEYS), what = chance(5);
    const uint8_t number = (uint8_t)(1 + chance(255));
    const int was = now.of[key] != 0;
    fill(record, key, number);
    int answer = what < 3 ? records_add(&records, record) : what == 3 ? records_change(&records, record) : records_remove(&records, record);
    if (answer == SILGWYRAD_DEVICE) return answer;
    const int due = what < 3 ? (was ? RECORDS_THERE : 0) : was ? 0 : RECORDS_NOT_THERE;
    if (answer != due && !(due == 0 && what < 3 && answer == RECORDS_NO_ROOM)) return -1;
    if (!answer) now.of[key] = what == 4 ? 0 : number;
    return 0;
}

/* All rounds, up to a failure of the device. The model's `saved` follows each save that was told. */
static int rounds(void) {
    int answer = 0;
    for (int i = 0; i < ROUNDS && !answer; i++) {
        for (int k = 0; k < IN_ROUND && !answer; k++) answer = step();
        if (i % 4 == 3 && !answer) {
            records_undo(&records);
            now = saved;
        }
        if (!answer) answer = records_save(&records);
        if (!answer) saved = now;
    }
    return answer;
}

static int begins(uint32_t sectors, uint32_t in_unit) {
    memset(&disk, 0, sizeof disk);
    memset(&saved, 0, sizeof saved);
    now = saved;
    chance_state = 7;
    disk.sectors = sectors;
    disk.in_unit = in_unit;
    disk.stop_at = disk.fail_at = NEVER;
    int answer = silgwyrad_format(DEVICE, sectors, BLOCKS);
    if (!answer) answer = silgwyrad_open(DEVICE, sectors, &store);
    if (!answer) answer = records_make(&records, &store, HEAD, BUCKETS, SIZE, KEY);
    disk.calls = 0;
    return !answer;
}

static int opens(void) { return !silgwyrad_open(DEVICE, disk.sectors, &store) && !records_open(&records, &store, HEAD) && !records_check(&records); }

/* How many images were the old ones, and how many the new ones. */
static long olds, news;

/* After a stop, or a failed call: what a loss of power may have left is what was saved, or what was being saved. */
static int is_kept(void) {
    static struct disk stopped;
    stopped = disk;
    const long all = outcomes(&stopped), tried = all < MOST_OUTCOMES ? all : MOST_OUTCOMES;
    for (long i = 0; i < tried; i++) {
        disk = stopped;
        settle(&disk, tried == all ? i : (long)chance(1u << 16) * (long)chance(1u << 16) % all);
        if (!opens()) return 0;
        if (are(&saved)) olds++;
        else if (are(&now)) news++;
        else return 0;
    }
    return 1;
}

/* Runs all rounds until they end or the power fails. Answers whether they ended. */
static int ends(int *answer) {
    if (setjmp(cut)) return 0;
    *answer = rounds();
    return 1;
}

/* Stops before each call, or lets each fail in turn. */
static int is_all_or_none(uint32_t sectors, uint32_t in_unit, int fails, int lies, long *stops) {
    for (*stops = 0;; ++*stops) {
        int answer = 0;
        if (!begins(sectors, in_unit)) return 0;
        disk.sync_lies = lies;
        *(fails ? &disk.fail_at : &disk.stop_at) = *stops;
        const int has_ended = ends(&answer);
        disk.stop_at = disk.fail_at = NEVER;
        if (has_ended && disk.calls <= *stops) return !answer && are(&saved) && !records_check(&records);
        if (has_ended && answer != SILGWYRAD_DEVICE) return 0;
        disk.sync_lies = 0;
        if (!is_kept()) return 0;
    }
}

static int try_layout(int layout) {
    const uint32_t sectors = layout == 3 ? PAGED_SECTORS : SECTORS, in_unit = layout == 3 ? IN_PAGE : 1;
    long stops, failures, lies;
    olds = news = 0;
    int failed = told(is_all_or_none(sectors, in_unit, 0, 0, &stops), "a stop before each call leaves all or none, and what was told");
    failed += told(is_all_or_none(sectors, in_unit, 1, 0, &failures) && failures == stops, "so does each call that fails");
    failed += told(olds > stops && news > 0, "both came");
    printf("layout %d: %ld calls, %ld images (%ld old, %ld new)\n", layout, stops, olds + news, olds, news);
    return failed + told(!is_all_or_none(sectors, in_unit, 0, 1, &lies), "a sync that lies is found out");
}

/* A bucket gets full, and each answer comes. */
static int answers_come(void) {
    uint8_t record[SIZE], found[SIZE];
    uint32_t key = 0;
    int answer = 0;
    if (!begins(SECTORS, 1) || records_open(&records, &store, HEAD + 1) != RECORDS_NO_HEAD || records_open(&records, &store, HEAD)) return 0;
    for (; !answer; key++) {
        fill(record, key, 9);
        answer = records_add(&records, record);
        if (!answer && records_add(&records, record) != RECORDS_THERE) return 0;
    }
    /* (5 buckets of 5) */
    if (answer != RECORDS_NO_ROOM || key != 26 || records_check(&records)) return 0;
    if (records_find(&records, record, found) != RECORDS_NOT_THERE || records_change(&records, record) != RECORDS_NOT_THERE) return 0;
    for (key = 0; key < 25; key++) {
        fill(record, key, 9);
        if (records_remove(&records, record) || records_remove(&records, record) != RECORDS_NOT_THERE || records_check(&records)) return 0;
    }
    return !records_save(&records) && records_make(&records, &store, HEAD, 0, SIZE, KEY) == RECORDS_BAD_SHAPE
        && records_make(&records, &store, HEAD, BLOCKS - HEAD, SIZE, KEY) == SILGWYRAD_NO_BLOCK
        && !records_make(&records, &store, HEAD, BLOCKS - HEAD - 1, 1022, 1022) && !records_check(&records);
}

/* Where there is no more place for changed blocks nothing is changed, and after a save it goes on. */
static int wants_saves(void) {
    uint8_t record[SIZE];
    uint32_t key = 0;
    int answer = 0;
    if (!begins(SECTORS, 1) || records_make(&records, &store, HEAD, BLOCKS - HEAD - 1, SIZE, KEY)) return 0;
    for (; !answer && key < 200; key++) {
        fill(record, key, 1);
        answer = records_add(&records, record);
    }
    return answer == RECORDS_SAVE_FIRST && !records_check(&records) && !records_save(&records) && !records_add(&records, record) && !records_check(&records);
}

int main(void) {
    const struct silgwyrad_device device = device_of(&disk);
    stop = power_fails;
    silgwyrad_use_device(DEVICE, &device);
    int failed = told(answers_come(), "each answer comes where it is due");
    failed += told(wants_saves(), "many changes want a save between");
    failed += try_layout(2) + try_layout(3);
    told(!failed, "records");
    return failed != 0;
}
