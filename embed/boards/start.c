/* What comes before main, on each board: a stack, memory as C wants it, and the devices. */
#include <stddef.h>

#include "board.h"

extern uint8_t zeros_begin[], zeros_end[], data_begin[], data_end[];
extern const uint8_t data_source[];

_Noreturn void start(void);

_Noreturn void start(void) {
    for (uint8_t *at = zeros_begin; at < zeros_end; at++) *at = 0;
    for (ptrdiff_t i = 0; i < data_end - data_begin; i++) data_begin[i] = data_source[i];
    board_begin();
    board_off(main());
}

#ifdef __riscv
/* The first instructions: one processor goes on, the others wait. */
__asm__(".section .first, \"ax\"\n"
        ".globl first\n"
        "first: csrr t0, mhartid\n"
        "0: bnez t0, 0b\n"
        "la sp, stack_end\n"
        "j start\n");
#else
/* A Cortex-M begins by the table of vectors: the stack, where to start, and where each fault leads to. */
static _Noreturn void fault(void) {
    static const char text[] = "\r\nFAULT\r\n";
    for (const char *at = text; *at; at++) board_emit((uint8_t)*at);
    board_off(1);
}

enum { FAULTS = 5 };

struct vectors {
    uint8_t *stack;
    void (*start)(void);
    void (*faults[FAULTS])(void);
};

extern const struct vectors vectors;
__attribute__((section(".first"), used)) const struct vectors vectors = {stack_end, start, {fault, fault, fault, fault, fault}};
#endif
