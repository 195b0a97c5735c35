#include "measure.h"

enum { DEVICE = 1, CONSOLE = 2, BLOCKS = 32, OLDER_SECTORS = SILGWYRAD_SECTORS(BLOCKS, 2), NEWER_SECTORS = SILGWYRAD_SECTORS(BLOCKS, 3), STEPS = 1000000 };

size_t silgwyrad_heap_most(void);

/* What a session does whose stack is measured: it calls itself, saves, writes buffers back, loads, and faults. */
static const char DEEP[] =
    "VARIABLE 'FIB\n: FIB DUP 2 < IF DROP 1 ELSE DUP 1- 'FIB @ EXECUTE SWAP 2- 'FIB @ EXECUTE + THEN ; ' FIB 'FIB !\n10 FIB .\n"
    ": BOTH 2 BLOCK 1024 2 PICK FILL UPDATE 3 BLOCK 1024 2 PICK FILL UPDATE DROP SAVE-BUFFERS ;\n7 BOTH\n"
    ": MANY 32 0 DO I BLOCK DROP UPDATE LOOP ; MANY FLUSH\n35 WORD 1 LOAD# COUNT 1 BLOCK SWAP CMOVE UPDATE 1 LOAD\n"
    "VOCABULARY V V DEFINITIONS\nNOSUCHWORD\n";

/* What one does whose steps are timed: turns of three. */
enum { TIMED_STEPS = 900000 };
static const char LONG[] = ": TURNS 10 0 DO 30000 0 DO I DROP LOOP LOOP ; TURNS\n";

static const char *left_of_text;

static int key(void *context) {
    (void)context;
    return *left_of_text ? (uint8_t)*left_of_text++ : -1;
}

/* The host's own part of the stack is to be small, so nothing is printed. */
static int emit(void *context, const uint8_t *text, size_t n) {
    (void)context;
    (void)text;
    (void)n;
    return 0;
}

/* Those of an image of layout 2, or of layout 3. */
static uint32_t sectors;

static uint8_t answer;
static uint8_t bytes[4 * SILGWYRAD_BLOCK];
static const uint16_t four[4] = {1, 2, 3, 4};
static struct silgwyrad_store store;

static void nothing(void) {}
static void format(void) { answer = silgwyrad_format(DEVICE, sectors, BLOCKS); }
static void recover(void) { answer = silgwyrad_recover(DEVICE, sectors); }
static void read_one(void) { answer = silgwyrad_read(DEVICE, sectors, 1, bytes, SILGWYRAD_BLOCK); }
static void save_four(void) { answer = silgwyrad_save(DEVICE, sectors, four, 4, bytes, sizeof bytes); }
static void open_store(void) { answer = silgwyrad_open(DEVICE, sectors, &store); }
static void read_open(void) { answer = silgwyrad_read_open(&store, 1, bytes, SILGWYRAD_BLOCK); }
static void save_open(void) { answer = silgwyrad_save_open(&store, four, 4, bytes, sizeof bytes); }
static void session(void) { answer = silgwyrad_run(DEVICE, sectors, CONSOLE, CONSOLE, STEPS); }

static int told(const char *name, void (*call)(void)) {
    const size_t touched = touched_by(call);
    if (answer) return tell_refusal(name, answer), 1;
    return tell_memory(name, touched, silgwyrad_heap_most()), 0;
}

static int told_steps(void) {
    left_of_text = LONG;
    const uint32_t begin = milliseconds();
    session();
    if (answer) return tell_refusal("steps", answer), 1;
    return tell_time(TIMED_STEPS, milliseconds() - begin), 0;
}

static int told_all(const char *const names[8], uint32_t of) {
    static void (*const calls[8])(void) = {format, recover, read_one, save_four, open_store, read_open, save_open, session};
    int failed = 0;
    sectors = of;
    left_of_text = DEEP;
    for (int i = 0; i < 8; i++) failed += told(names[i], calls[i]);
    return failed;
}

int measure(const struct silgwyrad_device *device) {
    static const struct silgwyrad_console console = {NULL, key, emit};
    silgwyrad_use_device(DEVICE, device);
    silgwyrad_use_console(CONSOLE, &console);
    static const char *const older[8] = {"format", "recover", "read", "save of four blocks", "open", "read of an open store",
        "save of four blocks to an open store", "session"};
    static const char *const newer[8] = {"format by layout 3", "recover by layout 3", "read by layout 3", "save of four blocks by layout 3",
        "open by layout 3", "read of an open store by layout 3", "save of four blocks to an open store by layout 3", "session by layout 3"};
    int failed = told("(no call)", nothing);
    failed += told_all(newer, NEWER_SECTORS);
    failed += told_all(older, OLDER_SECTORS);
    return failed + told_steps();
}
