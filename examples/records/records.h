/* Records of one size by key, in the blocks of an open store: they are added, changed and removed in memory, and saved together, all or none.
 *
 * A head block tells their number and shape; the blocks after it are buckets. A record stands in the bucket that its key hashes to, or, where that was
 * full, in one of the next ones. So most calls read one block. README.md has the bytes; the same image is read by the screens beside this file. */
#ifndef RECORDS_H
#define RECORDS_H

#include "silgwyrad.h"

#ifdef __cplusplus
extern "C" {
#endif

/* How many blocks may be changed until they are saved, each of which has a place in memory. A call that changes a record wants at most 2. */
#ifndef RECORDS_CHANGES
#define RECORDS_CHANGES 8
#endif

/* What a call answers: 0 where it was done, a number of silgwyrad_answer, or one of these, at which nothing was changed. */
enum records_answer {
    RECORDS_NOT_THERE = 32, /* there is no record with this key */
    RECORDS_THERE,          /* there is one already */
    RECORDS_NO_ROOM,        /* all buckets are full */
    RECORDS_SAVE_FIRST,     /* RECORDS_CHANGES blocks wait to be saved */
    RECORDS_NO_HEAD,        /* no records were made there */
    RECORDS_BAD_SHAPE,      /* no key, one longer than the record, a record longer than a block, or no bucket */
    RECORDS_BROKEN          /* the check found bytes that these calls don't leave */
};

/* Looked at by these calls alone. It has to stay while it is used, and so has the store. */
struct records {
    struct silgwyrad_store *store;
    uint16_t head, buckets, size, key;
    uint16_t changed;                                   /* so many of the blocks below, which are the first ones; behind them stands the one that was read */
    uint16_t numbers[RECORDS_CHANGES + 1];
    uint8_t bytes[RECORDS_CHANGES + 1][SILGWYRAD_BLOCK];
};

/* Makes an empty set of records of `size` bytes, of which the first `key` are the key, in the blocks head to head + buckets. It saves. A stop leaves the
 * empty set, the old one, or none: then it is made again. */
int records_make(struct records *records, struct silgwyrad_store *store, uint16_t head, uint16_t buckets, uint16_t size, uint16_t key);

/* Opens those that were made there, as they were saved. Also after SILGWYRAD_DEVICE, once the store is open again: what wasn't saved is gone. */
int records_open(struct records *records, struct silgwyrad_store *store, uint16_t head);

/* Copies the record with this key to `out`, also one that isn't saved yet. Of `key` the first bytes count, here and below. */
int records_find(struct records *records, const uint8_t *key, uint8_t *out);
int records_add(struct records *records, const uint8_t *record);
int records_change(struct records *records, const uint8_t *record);
int records_remove(struct records *records, const uint8_t *key);

/* How many there are. */
int records_count(struct records *records, uint16_t *count);

/* Copies the record after a place to `out`, and its place to `place`: from zeros on each of them once, in no order, as long as none is added or removed.
 * Behind the last one it is RECORDS_NOT_THERE. */
struct records_place {
    uint16_t block, at;
};
int records_next(struct records *records, struct records_place *place, uint8_t *out);

/* Saves what was changed since the last save, all or none: after 0 no stop loses it. At SILGWYRAD_DEVICE open the store, and then the records, again. */
int records_save(struct records *records);

/* Forgets what was changed since the last save. */
void records_undo(struct records *records);

/* Looks at all blocks: is each record found by its key, and are there as many as the head tells? */
int records_check(struct records *records);

/* An answer as text. */
const char *records_text(int answer);

#ifdef __cplusplus
}
#endif
#endif
