/* A Forth system on a board. What is typed is echoed, and a line may be mended by a backspace before it is ended; Ctrl-D at a line's begin
 * ends the session, and the next one begins.
 *
 * Words ask the firmware for what no word of the system does, as ../host.scr has it: they print a byte 1, a letter, a number and a blank, and
 * read the answer by KEY, a number and a line's end. None of that is seen on the console. */
#include "board.h"
#include "console.h"
#include "image.h"

enum { DEVICE = 1, CONSOLE = 2, BLOCKS = 64, STEPS = 1000000 };
enum { END_OF_INPUT = 4, BACKSPACE = 8, DELETE = 127, RETURN = 13, LINE_FEED = 10 };

/* The line that is typed, or that was; a session takes its bytes. */
static struct {
    uint8_t bytes[1024];
    unsigned count, taken;
} line;

/* Waits for a line. Answers whether there is one, and not the input's end. */
static int type_line(void) {
    line.count = line.taken = 0;
    for (;;) {
        uint8_t byte = board_key();
        if (byte == END_OF_INPUT && line.count == 0) return 0;
        if (byte == BACKSPACE || byte == DELETE) {
            if (line.count == 0) continue;
            line.count--;
            say("\b \b");
        } else if (byte == RETURN || byte == LINE_FEED) {
            line.bytes[line.count++] = LINE_FEED;
            say("\n");
            return 1;
        } else if (line.count < sizeof line.bytes - 1) {
            line.bytes[line.count++] = byte;
            board_emit(byte);
        }
    }
}

/* A request is a mark, a letter, a number and a blank; the answer, which ends with a line's end, is read before the next line. */
static struct {
    enum { NONE, MARKED, NUMBERED } state;
    uint8_t letter;
    uint32_t number;
} request;
static struct {
    uint8_t bytes[12];
    unsigned count, taken;
} answer;

enum { MARK = 1, TIME = 'T', WAIT = 'W', LAMP = 'L' };

static void answer_with(uint32_t number) {
    unsigned at = sizeof answer.bytes;
    answer.bytes[--at] = LINE_FEED;
    do answer.bytes[--at] = (uint8_t)('0' + number % 10);
    while (number /= 10);
    answer.taken = at;
    answer.count = sizeof answer.bytes;
}

static void wait(uint32_t milliseconds) {
    const uint32_t begin = board_milliseconds();
    while (board_milliseconds() - begin < milliseconds) {
    }
}

/* Does what was asked. A letter that isn't known is answered with 0. */
static void do_request(void) {
    uint32_t number = 0;
    if (request.letter == TIME) number = (uint16_t)board_milliseconds();
    if (request.letter == WAIT) wait(request.number);
    if (request.letter == LAMP) board_lamp(request.number != 0);
    answer_with(number);
}

/* Takes a byte of a request. Answers whether it is one. */
static int is_of_request(uint8_t byte) {
    switch (request.state) {
    case NONE:
        if (byte != MARK) return 0;
        request.state = MARKED;
        return 1;
    case MARKED:
        request.letter = byte;
        request.number = 0;
        request.state = NUMBERED;
        return 1;
    case NUMBERED:
        if (byte >= '0' && byte <= '9') {
            request.number = 10 * request.number + (uint32_t)(byte - '0');
        } else {
            request.state = NONE;
            do_request();
        }
    }
    return 1;
}

static int key(void *context) {
    (void)context;
    if (answer.taken < answer.count) return answer.bytes[answer.taken++];
    if (line.taken == line.count && !type_line()) return -1;
    return line.bytes[line.taken++];
}

static int emit(void *context, const uint8_t *bytes, size_t n) {
    (void)context;
    for (size_t i = 0; i < n; i++) {
        if (is_of_request(bytes[i])) continue;
        if (bytes[i] == LINE_FEED) board_emit(RETURN);
        board_emit(bytes[i]);
    }
    return 0;
}

int main(void) {
    static const struct silgwyrad_console console = {NULL, key, emit};
    uint32_t sectors = image_sectors();
    uint8_t told = SILGWYRAD_DONE;
    silgwyrad_use_device(DEVICE, &board_disk);
    silgwyrad_use_console(CONSOLE, &console);
    if (!sectors) told = silgwyrad_format(DEVICE, sectors = sectors_for(BLOCKS), BLOCKS);
    while (!told) {
        say("forth\n");
        told = silgwyrad_run(DEVICE, sectors, CONSOLE, CONSOLE, STEPS);
    }
    say("answer ");
    say_number(told);
    say("\n");
    return told;
}
