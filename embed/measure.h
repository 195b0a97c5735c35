/* How much of the stack and of the heap each call of the library takes, and how fast a session's steps are. */
#ifndef MEASURE_H
#define MEASURE_H

#include "silgwyrad.h"

/* Calls each by either layout on a device with room for 544 sectors, and tells what it took. Answers how many of them weren't done. */
int measure(const struct silgwyrad_device *device);

/* Those below are the system's on which it is measured. */

/* The bytes of the stack that a call touches. */
size_t touched_by(void (*call)(void));
uint32_t milliseconds(void);
void tell_memory(const char *name, size_t stack, size_t heap);
void tell_time(uint32_t steps, uint32_t of_milliseconds);
void tell_refusal(const char *name, uint8_t answer);

#endif
