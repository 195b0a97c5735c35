/* A program in C and a program in Forth that share blocks while a session runs, with one thread: the program's own loop runs in `key`, whenever the
 * session wants a line. To read a block or to write one it types a line, and takes the reply; the session's buffers and saves are the only ones, so
 * both see each change at once.
 *
 * Forth waters a garden of eight squares: block 1 holds their moisture, which C measures, and block 2 which valves are to be open, which C sets. */
#include <stdio.h>
#include <string.h>

#include "disk.h"

enum { DEVICE = 1, CONSOLE = 2, STEPS = 1000000, VALVES = 2, SQUARES = 8, ROUNDS = 4 };

/* What the program types: a line, and then the bytes of a block where one is written. */
static struct {
    const char *line;
    const uint8_t *bytes;
    size_t of_line, of_bytes;
} typed = {.line = "", .of_line = 1, .of_bytes = SILGWYRAD_BLOCK};

/* What the session replied to it, or the bytes of a block where one is read. */
static struct {
    uint8_t bytes[SILGWYRAD_BLOCK + 64];
    size_t count;
} reply;

static void type(const char *line, const uint8_t *bytes) {
    typed.line = line;
    typed.bytes = bytes;
    typed.of_line = 0;
    typed.of_bytes = bytes ? 0 : SILGWYRAD_BLOCK;
    reply.count = 0;
}

/* The words by which blocks go to and fro, and the Forth program. */
static const char *const words[] = {
    ": GIVE ( U -- )  BLOCK 1024 TYPE ;",
    ": TAKE ( U -- )  BLOCK UPDATE 1024 0 DO KEY OVER I + C! LOOP DROP ;",
    ": WATER ( -- )  8 0 DO I 1 BLOCK + C@ 30 < I 2 BLOCK + C! LOOP UPDATE SAVE-BUFFERS ;",
};
enum { WORDS = sizeof words / sizeof words[0] };

static uint8_t moisture[SILGWYRAD_BLOCK] = {50, 45, 40, 35, 30, 25, 60, 33};
static uint8_t valves[SQUARES];
static unsigned rounds;

/* A round: C measures, Forth decides and saves, and C sets the valves. */
static enum { DEFINING, MEASURED, WATERED, DECIDED, ENDED } state;
static unsigned defined;

static void measure(void) {
    for (int i = 0; i < SQUARES; i++) moisture[i] = (uint8_t)(moisture[i] + (valves[i] ? 25 : -10));
}

static void show(void) {
    printf("round %u:", rounds);
    for (int i = 0; i < SQUARES; i++) printf(" %d%s", moisture[i], valves[i] ? "*" : "");
    printf("\n");
}

/* The program's loop goes on by one step, which types what is wanted next. Answers whether there is any more. */
static int go_on(void) {
    switch (state) {
    case DEFINING:
        if (defined < WORDS) return type(words[defined++], NULL), 1;
        measure();
        state = MEASURED;
        return type("1 TAKE", moisture), 1;
    case MEASURED:
        state = WATERED;
        return type("WATER", NULL), 1;
    case WATERED:
        state = DECIDED;
        return type("2 GIVE", NULL), 1;
    case DECIDED:
        memcpy(valves, reply.bytes, SQUARES);
        rounds++;
        show();
        if (rounds == ROUNDS) break;
        state = DEFINING;
        return go_on();
    case ENDED: break;
    }
    state = ENDED;
    return 0;
}

static int key(void *context) {
    (void)context;
    if (typed.of_line < strlen(typed.line)) return (uint8_t)typed.line[typed.of_line++];
    if (typed.of_line == strlen(typed.line)) return typed.of_line++, '\n';
    if (typed.of_bytes < SILGWYRAD_BLOCK) return typed.bytes[typed.of_bytes++];
    return go_on() ? key(context) : -1;
}

static int emit(void *context, const uint8_t *bytes, size_t n) {
    (void)context;
    for (size_t i = 0; i < n && reply.count < sizeof reply.bytes; i++) reply.bytes[reply.count++] = bytes[i];
    return 0;
}

/* What the session saved is there once it has ended. */
static int is_saved(void) {
    uint8_t saved[SILGWYRAD_BLOCK];
    return !silgwyrad_read(DEVICE, SECTORS, VALVES, saved, sizeof saved) && !memcmp(saved, valves, SQUARES);
}

int main(void) {
    static struct disk disk = {.sectors = SECTORS, .in_unit = 1, .stop_at = NEVER, .fail_at = NEVER};
    static const struct silgwyrad_console console = {NULL, key, emit};
    const struct silgwyrad_device device = device_of(&disk);
    silgwyrad_use_device(DEVICE, &device);
    silgwyrad_use_console(CONSOLE, &console);
    if (silgwyrad_format(DEVICE, SECTORS, BLOCKS) || silgwyrad_run(DEVICE, SECTORS, CONSOLE, CONSOLE, STEPS)) return 1;
    if (!is_saved()) return 1;
    printf("saved\n");
    return 0;
}
