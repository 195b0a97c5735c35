#include "console.h"

#include "board.h"

enum { DIGITS = 10 };

/* A line's end is a return and a line feed. */
void say(const char *text) {
    for (; *text; text++) {
        if (*text == '\n') board_emit('\r');
        board_emit((uint8_t)*text);
    }
}

void say_number(uint32_t number) {
    char digits[DIGITS + 1] = {0};
    char *at = digits + DIGITS;
    do *--at = (char)('0' + number % 10);
    while (number /= 10);
    say(at);
}
