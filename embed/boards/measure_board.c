/* Measures on a board, over its disk: the stack below a call is painted before it and looked at after it. */
#include "board.h"
#include "console.h"
#include "image.h"
#include "measure.h"

/* What touched_by itself may have on the stack. */
enum { OWN_STACK = 128, PAINT = 0xA5 };

__attribute__((noinline)) size_t touched_by(void (*call)(void)) {
    const uint8_t *const here = __builtin_frame_address(0);
    for (volatile uint8_t *at = stack_begin; at < here - OWN_STACK; at++) *at = PAINT;
    call();
    const volatile uint8_t *at = stack_begin;
    while (at < here && *at == PAINT) at++;
    return (size_t)(here - at);
}

uint32_t milliseconds(void) { return board_milliseconds(); }

void tell_memory(const char *name, size_t touched, size_t heap) {
    say(name);
    say(": stack ");
    say_number((uint32_t)touched);
    say(" heap ");
    say_number((uint32_t)heap);
    say("\n");
}

void tell_time(uint32_t steps, uint32_t of_milliseconds) {
    say("steps: ");
    say_number(steps);
    say(" in ");
    say_number(of_milliseconds);
    say(" ms\n");
}

void tell_refusal(const char *name, uint8_t answer) {
    say(name);
    say(": answer ");
    say_number(answer);
    say("\n");
}

int main(void) { return measure(&board_disk) ? 1 : 0; }
