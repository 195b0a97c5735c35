#include "bodies.h"
#include <assert.h>

enum { EXECUTE = 37, EXIT = 38 };

// In a row of words: any user's word.
enum { USERS = FIRST_USER_TOKEN };

// Rows of words for which the machine has a way of its own; their jumps and ends are put where such a cell belongs. (What begins like one
// and goes on otherwise comes by chance.)
static const uint16_t rows[][4] = {
    {36, LITERAL, 18, TEST}, // DUP 2 < IF
    {36, USERS, 18, TEST},   // DUP SIZE < IF
    {36, 40, 5},             // DUP I +
    {36, 23},                // DUP @
    {LITERAL, 5},            // 2 +
    {LITERAL, 2},            // 2 *
    {LITERAL, 48, USERS, 5}, // 2 OVER FLAGS +
    {USERS, 40, 5, 27},      // FLAGS I + C@
    {USERS, 5, 53},          // ROW + ROT
    {USERS, 23, EXECUTE},    // SELF @ EXECUTE
    {USERS, 23},             // SELF @
    {USERS, 5},              // ROW +
    {48, 48, 20, TEST},      // OVER OVER > IF
    {48, 5},                 // OVER +
    {48, 23, 2},             // OVER @ *
    {48, 15, 23},            // OVER 2+ @
    {54, 48, 15, 1},         // SWAP OVER 2+ !
    {54, 14, USERS},         // SWAP 1- FIB
    {35, 35},                // DROP DROP
    {53, 54, 48, 1},         // ROT SWAP OVER !
    {53, 15, 53},            // ROT 2+ ROT
    {14, 36, USERS},         // 1- DUP FIB
    {40, 36, 5},             // I DUP +
    {19, TEST},              // = IF
    {21, 48, 23},            // >R OVER @
    {50, 5},                 // R> +
    {23, EXECUTE},           // @ EXECUTE
};
// what such a row ends with: + ;  1+ LOOP  2+ LOOP  ROT LOOP  + REPEAT
static const uint16_t last_words[] = {5, 13, 15, 53};

uint32_t below(uint32_t most) {
    static uint32_t seed = 1;
    seed = seed * 1664525 + 1013904223;
    return (seed >> 8) % most;
}

// of every kind: small, at the edges, addresses, and tokens
static uint16_t some_cell(void) {
    static const uint16_t edges[] = {0,     1,     2,     3,     7,    32766, 32767, 32768, 32769, 65533,
                                     65534, 65535, 1280,  1281,  1283, 36,    133,   134,   135,   136};
    return below(4) ? edges[below(sizeof edges / sizeof edges[0])] : (uint16_t)below(65536);
}

// one of the machine's own, but EXECUTE and EXIT
static uint16_t some_token(void) {
    static const uint16_t others[] = {74, 77, 82, 84, 85, 87, 92, 99, 100, 123, 129, 132};
    static const uint16_t frequent[] = {1,  2,  5,  6,  7,  10, 11, 13, 14, 15, 18, 19, 20, 21,
                                        22, 23, 25, 26, 27, 35, 36, 40, 41, 48, 50, 51, 53, 54};
    switch (below(10)) {
    case 0:
        return others[below(sizeof others / sizeof others[0])];
    case 1:
    case 2: {
        uint16_t token = (uint16_t)(1 + below(58));
        return token == EXECUTE || token == EXIT ? 36 : token;
    }
    default:
        return frequent[below(sizeof frequent / sizeof frequent[0])];
    }
}

// The body that is being made: how deep its structures are, and whether it stands in a loop, whose LEAVEs are kept.
struct maker {
    struct bodies *to;
    unsigned levels;
    size_t *leaves, *leaves_end;
};

static void some_words(struct maker *maker, uint32_t count);

static void put(struct maker *maker, uint16_t cell) {
    assert(maker->to->size < MOST_CELLS);
    maker->to->code[maker->to->size++] = cell;
}

// a cell that is told later, and its place
static size_t hole(struct maker *maker) {
    put(maker, 0);
    return maker->to->size - 1;
}

static void leads_here(struct maker *maker, size_t hole) {
    maker->to->code[hole] = (uint16_t)maker->to->size;
}

static void put_literal(struct maker *maker, uint16_t value) {
    put(maker, LITERAL);
    put(maker, value);
}

// one of the words before, the body itself, or now and then a later one or none
static uint16_t users_token(struct maker *maker) {
    return (uint16_t)(FIRST_USER_TOKEN + below((uint32_t)maker->to->count + 1 + (below(20) == 0)));
}

static void some_if(struct maker *maker) {
    put(maker, TEST);
    size_t otherwise = hole(maker);
    some_words(maker, below(3));
    if (below(2)) {
        put(maker, JUMP);
        size_t end = hole(maker);
        leads_here(maker, otherwise);
        some_words(maker, below(3));
        otherwise = end;
    }
    leads_here(maker, otherwise);
}

// BEGIN to UNTIL, or to WHILE and REPEAT
static void some_turns(struct maker *maker) {
    uint16_t begin = (uint16_t)maker->to->size;
    some_words(maker, 1 + below(3));
    put(maker, TEST);
    if (below(2)) {
        put(maker, begin);
        return;
    }
    size_t end = hole(maker);
    some_words(maker, below(3));
    if (below(2)) {
        put(maker, 48);
        put(maker, 5);
    }
    put(maker, BACK);
    put(maker, begin);
    leads_here(maker, end);
}

// DO to LOOP or +LOOP, most of them of a few turns
static void some_loop(struct maker *maker) {
    size_t leaves[8];
    struct maker inside = {maker->to, maker->levels, leaves, leaves};
    if (below(4)) {
        uint16_t index = some_cell();
        put_literal(maker, (uint16_t)(index + below(5)));
        put_literal(maker, index);
    }
    put(maker, DO);
    uint16_t begin = (uint16_t)maker->to->size;
    some_words(&inside, 1 + below(4));
    if (below(3) == 0)
        put(maker, last_words[below(4)]);
    put(maker, below(3) ? LOOP : PLUS_LOOP);
    put(maker, begin);
    while (inside.leaves_end > leaves)
        leads_here(maker, *--inside.leaves_end);
}

static void some_row(struct maker *maker) {
    const uint16_t *row = rows[below(sizeof rows / sizeof rows[0])];
    for (unsigned i = 0; i < 4 && row[i] != 0; i++) {
        if (row[i] == TEST)
            some_if(maker);
        else if (row[i] == LITERAL)
            put_literal(maker, some_cell());
        else
            put(maker, row[i] == USERS ? users_token(maker) : row[i]);
    }
}

static void some_word(struct maker *maker) {
    switch (below(16)) {
    case 0:
        put_literal(maker, some_cell());
        some_if(maker);
        return;
    case 1:
        some_turns(maker);
        return;
    case 2:
        some_loop(maker);
        return;
    case 3:
        // as the compiler has it, EXIT stands outside of loops, and LEAVE inside
        if (maker->leaves == NULL) {
            if (below(3) == 0)
                put(maker, EXIT);
        } else if (maker->leaves_end < maker->leaves + 8) {
            put(maker, LEAVE);
            *maker->leaves_end++ = hole(maker);
        }
        return;
    case 4:
        put(maker, users_token(maker));
        return;
    case 5:
        put_literal(maker, users_token(maker));
        put(maker, EXECUTE);
        return;
    case 6:
    case 7:
        put_literal(maker, some_cell());
        return;
    case 8:
    case 9:
    case 10:
        put(maker, some_token());
        return;
    default:
        some_row(maker);
    }
}

static void some_words(struct maker *maker, uint32_t count) {
    maker->levels++;
    // no word takes half of the room
    for (; count > 0 && maker->levels < 6 && maker->to->size < MOST_CELLS / 2; count--)
        some_word(maker);
    maker->levels--;
}

// 65535 0 DO 3 3 3 LOOP, which fills the data stack
static void fill(struct maker *maker) {
    put_literal(maker, 65535);
    put_literal(maker, 0);
    put(maker, DO);
    uint16_t begin = (uint16_t)maker->to->size;
    for (uint32_t i = 1 + below(3); i > 0; i--)
        put_literal(maker, some_cell());
    put(maker, LOOP);
    put(maker, begin);
}

static void some_body(struct bodies *to) {
    struct maker maker = {to, 0, NULL, NULL};
    uint16_t begin = (uint16_t)to->size;
    for (uint32_t i = below(8); i > 0; i--)
        put_literal(&maker, some_cell());
    if (below(25) == 0)
        fill(&maker);
    some_words(&maker, below(10));
    if (below(3) == 0)
        put(&maker, last_words[below(4)]);
    put(&maker, END);
    to->words[to->count++] = (struct word){1, begin};
}

void some_bodies(struct bodies *bodies) {
    bodies->size = 0;
    bodies->count = 0;
    for (uint32_t i = below(5); i > 0; i--) {
        if (below(2))
            bodies->words[bodies->count++] = (struct word){0, below(2) ? some_cell() : (uint16_t)(1280 + 2 * below(20))};
        else
            some_body(bodies);
    }
    some_body(bodies);
}
