/* Semihosting: a program on the board asks the emulator, or a debugger, by a breakpoint. */
#ifndef CORTEX_H
#define CORTEX_H

/* The answer to an operation on words. */
int ask_emulator(int operation, const void *words);

#endif
