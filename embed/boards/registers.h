/* A device's registers, by their addresses. */
#ifndef REGISTERS_H
#define REGISTERS_H

#include <stdint.h>

static inline volatile uint8_t *byte_at(uintptr_t address) { return (volatile uint8_t *)address; }
static inline volatile uint32_t *word_at(uintptr_t address) { return (volatile uint32_t *)address; }

#endif
