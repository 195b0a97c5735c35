/* What the two boards with a Cortex-M share: a reset, and the calls by which a program asks the emulator for something. */
#include "cortex.h"

#include "board.h"
#include "registers.h"

static const uintptr_t RESET = 0xE000ED0C;
enum { RESET_WORD = 0x05FA0004, EXIT = 0x20, EXIT_OF_PROGRAM = 0x20026 };

int ask_emulator(int operation, const void *words) {
    register int answer __asm__("r0") = operation;
    register const void *place __asm__("r1") = words;
    __asm__ volatile("bkpt 0xAB" : "+r"(answer) : "r"(place) : "memory");
    return answer;
}

void board_reset(void) {
    *word_at(RESET) = RESET_WORD;
    for (;;) {
    }
}

void board_off(int status) {
    const uint32_t words[2] = {EXIT_OF_PROGRAM, (uint32_t)status};
    ask_emulator(EXIT, words);
    for (;;) {
    }
}
