#include "records.h"

#include <string.h>

/* Where the cells of a head stand, each of two bytes, the low one first; what begins a bucket and a slot. Other bytes there mean that it was never full, or
 * that the slot is free: so blank blocks are empty buckets. */
enum { MARK_BYTES = 10, BUCKETS = 10, SIZE = 12, KEY = 14, COUNT = 16, WAS_FULL = 'F', USED = 'R', BLANK = ' ', NOTHING = 0xFFFF, MOST = 0xFFFF };

static const char mark[] = "RECORDS 1 ";

static uint16_t cell(const uint8_t *at) { return (uint16_t)(at[0] | at[1] << 8); }

static void put_cell(uint8_t *at, uint16_t n) {
    at[0] = (uint8_t)n;
    at[1] = (uint8_t)(n >> 8);
}

/* A block as it is now. What was only looked at stays until the next look. */
static int look(struct records *r, uint16_t block, uint8_t **at) {
    uint16_t i = 0;
    while (i < r->changed && r->numbers[i] != block) i++;
    *at = r->bytes[i];
    if (r->numbers[i] == block) return 0;
    r->numbers[i] = NOTHING;
    const int answer = silgwyrad_read_open(r->store, block, *at, SILGWYRAD_BLOCK);
    if (!answer) r->numbers[i] = block;
    return answer;
}

/* A block that the next save is to save, with what is written there until then. */
static int change(struct records *r, uint16_t block, uint8_t **at) {
    int answer = look(r, block, at);
    if (answer || *at != r->bytes[r->changed]) return answer;
    if (r->changed == RECORDS_CHANGES) return RECORDS_SAVE_FIRST;
    r->numbers[++r->changed] = NOTHING;
    return 0;
}

int records_save(struct records *r) {
    int answer = r->changed ? silgwyrad_save_open(r->store, r->numbers, r->changed, r->bytes[0], (uint64_t)r->changed * SILGWYRAD_BLOCK) : 0;
    if (!answer) r->changed = 0;
    return answer;
}

void records_undo(struct records *r) {
    r->changed = 0;
    r->numbers[0] = NOTHING;
}

static int has_shape(const struct records *r) { return r->buckets && r->key && r->key <= r->size && r->size < SILGWYRAD_BLOCK - 1; }

static uint32_t slot_bytes(const struct records *r) { return 1u + r->size; }

/* Whether a whole slot stands at a place of a bucket. */
static int is_slot(const struct records *r, uint32_t at) { return at + slot_bytes(r) <= SILGWYRAD_BLOCK; }

/* Makes a block blank, with the changes before it where no room is left. */
static int blank(struct records *r, uint16_t block) {
    uint8_t *at = NULL;
    int answer = r->changed == RECORDS_CHANGES ? records_save(r) : 0;
    if (!answer) answer = change(r, block, &at);
    if (!answer) memset(at, BLANK, SILGWYRAD_BLOCK);
    return answer;
}

int records_make(struct records *r, struct silgwyrad_store *store, uint16_t head, uint16_t buckets, uint16_t size, uint16_t key) {
    const uint32_t last = (uint32_t)head + buckets;
    uint8_t *at = NULL;
    r->store = store;
    r->head = head;
    r->buckets = buckets;
    r->size = size;
    r->key = key;
    records_undo(r);
    if (!has_shape(r) || last >= NOTHING) return RECORDS_BAD_SHAPE;
    int answer = look(r, (uint16_t)last, &at);
    /* the old head goes first, and the new one comes last */
    if (!answer) answer = blank(r, head);
    if (!answer) answer = records_save(r);
    for (uint32_t i = head + 1u; i <= last && !answer; i++) answer = blank(r, (uint16_t)i);
    if (!answer) answer = records_save(r);
    if (!answer) answer = change(r, head, &at);
    if (answer) return answer;
    memcpy(at, mark, MARK_BYTES);
    put_cell(at + BUCKETS, buckets);
    put_cell(at + SIZE, size);
    put_cell(at + KEY, key);
    put_cell(at + COUNT, 0);
    return records_save(r);
}

int records_open(struct records *r, struct silgwyrad_store *store, uint16_t head) {
    uint8_t *at = NULL;
    r->store = store;
    r->head = head;
    records_undo(r);
    const int answer = look(r, head, &at);
    if (answer) return answer;
    if (memcmp(at, mark, MARK_BYTES)) return RECORDS_NO_HEAD;
    r->buckets = cell(at + BUCKETS);
    r->size = cell(at + SIZE);
    r->key = cell(at + KEY);
    return has_shape(r) ? 0 : RECORDS_BAD_SHAPE;
}

/* The bucket that a key is looked for in first. */
static uint16_t home(const struct records *r, const uint8_t *key) {
    uint16_t hash = 0;
    for (uint16_t i = 0; i < r->key; i++) hash = (uint16_t)(31u * hash + key[i]);
    return hash % r->buckets;
}

static uint16_t bucket(const struct records *r, uint32_t i) { return (uint16_t)(r->head + 1 + i % r->buckets); }

/* Looks for a key, up to a bucket that was never full, and for the first free slot on the way. */
static int seek(struct records *r, const uint8_t *key, struct records_place *found, struct records_place *room) {
    const uint32_t first = home(r, key);
    uint8_t *bytes = NULL;
    found->block = found->at = room->block = room->at = 0;
    for (uint32_t i = 0; i < r->buckets; i++) {
        const uint16_t block = bucket(r, first + i);
        int answer = look(r, block, &bytes);
        if (answer) return answer;
        for (uint32_t at = 1; is_slot(r, at) && !found->at; at += slot_bytes(r)) {
            const int is_used = bytes[at] == USED;
            struct records_place *it = is_used ? found : room;
            if (is_used ? memcmp(bytes + at + 1, key, r->key) : room->at) continue;
            it->block = block;
            it->at = (uint16_t)at;
        }
        if (found->at) return 0;
        if (bytes[0] != WAS_FULL) break;
    }
    return RECORDS_NOT_THERE;
}

int records_find(struct records *r, const uint8_t *key, uint8_t *out) {
    struct records_place found, room;
    uint8_t *bytes = NULL;
    int answer = seek(r, key, &found, &room);
    if (!answer) answer = look(r, found.block, &bytes);
    if (!answer) memcpy(out, bytes + found.at + 1, r->size);
    return answer;
}

int records_change(struct records *r, const uint8_t *record) {
    struct records_place found, room;
    uint8_t *bytes = NULL;
    int answer = seek(r, record, &found, &room);
    if (!answer) answer = change(r, found.block, &bytes);
    if (!answer) memcpy(bytes + found.at + 1, record, r->size);
    return answer;
}

/* The head and another block, to be changed together, or neither. (A head that waits to be saved as it is does no harm.) */
static int change_both(struct records *r, uint16_t block, uint8_t **head, uint8_t **bytes) {
    int answer = change(r, r->head, head);
    return answer ? answer : change(r, block, bytes);
}

static int is_full(const struct records *r, const uint8_t *bytes) {
    for (uint32_t at = 1; is_slot(r, at); at += slot_bytes(r))
        if (bytes[at] != USED) return 0;
    return 1;
}

int records_add(struct records *r, const uint8_t *record) {
    struct records_place found, room;
    uint8_t *head = NULL, *bytes = NULL;
    int answer = seek(r, record, &found, &room);
    if (!answer) return RECORDS_THERE;
    if (answer != RECORDS_NOT_THERE) return answer;
    if (!room.at) return RECORDS_NO_ROOM;
    answer = change_both(r, room.block, &head, &bytes);
    if (answer) return answer;
    if (cell(head + COUNT) == MOST) return RECORDS_NO_ROOM;
    bytes[room.at] = USED;
    memcpy(bytes + room.at + 1, record, r->size);
    if (is_full(r, bytes)) bytes[0] = WAS_FULL;
    put_cell(head + COUNT, (uint16_t)(cell(head + COUNT) + 1));
    return 0;
}

int records_remove(struct records *r, const uint8_t *key) {
    struct records_place found, room;
    uint8_t *head = NULL, *bytes = NULL;
    int answer = seek(r, key, &found, &room);
    if (!answer) answer = change_both(r, found.block, &head, &bytes);
    if (answer) return answer;
    memset(bytes + found.at, BLANK, slot_bytes(r));
    put_cell(head + COUNT, (uint16_t)(cell(head + COUNT) - 1));
    return 0;
}

int records_count(struct records *r, uint16_t *count) {
    uint8_t *head = NULL;
    int answer = look(r, r->head, &head);
    if (!answer) *count = cell(head + COUNT);
    return answer;
}

int records_next(struct records *r, struct records_place *place, uint8_t *out) {
    uint32_t block = place->block ? place->block : bucket(r, 0), at = place->at ? place->at + slot_bytes(r) : 1;
    for (; block <= (uint32_t)r->head + r->buckets; block++, at = 1) {
        uint8_t *bytes = NULL;
        int answer = look(r, (uint16_t)block, &bytes);
        if (answer) return answer;
        while (is_slot(r, at) && bytes[at] != USED) at += slot_bytes(r);
        if (!is_slot(r, at)) continue;
        memcpy(out, bytes + at + 1, r->size);
        place->block = (uint16_t)block;
        place->at = (uint16_t)at;
        return 0;
    }
    return RECORDS_NOT_THERE;
}

int records_check(struct records *r) {
    struct records_place place = {0, 0}, found, room;
    uint8_t record[SILGWYRAD_BLOCK];
    uint16_t count = 0, told = 0;
    int answer;
    while (!(answer = records_next(r, &place, record))) {
        answer = seek(r, record, &found, &room);
        if (answer == RECORDS_NOT_THERE || (!answer && (found.block != place.block || found.at != place.at))) return RECORDS_BROKEN;
        if (answer) return answer;
        count++;
    }
    if (answer == RECORDS_NOT_THERE) answer = records_count(r, &told);
    return answer || told == count ? answer : RECORDS_BROKEN;
}

const char *records_text(int answer) {
    static const char *const texts[] = {"not there", "there already", "no room", "save first", "no records", "bad shape", "broken"};
    return answer >= RECORDS_NOT_THERE && answer <= RECORDS_BROKEN ? texts[answer - RECORDS_NOT_THERE] : silgwyrad_text(answer);
}
