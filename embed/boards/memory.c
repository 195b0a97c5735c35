/* What the library asks of a C library, for a firmware that has none. */
#include <stddef.h>
#include <stdint.h>

void *memcpy(void *restrict to, const void *restrict from, size_t n);
void *memmove(void *to, const void *from, size_t n);
void *memset(void *to, int byte, size_t n);

void *memcpy(void *restrict to, const void *restrict from, size_t n) {
    uint8_t *target = to;
    const uint8_t *source = from;
    while (n--) *target++ = *source++;
    return to;
}

void *memmove(void *to, const void *from, size_t n) {
    uint8_t *target = to;
    const uint8_t *source = from;
    if ((uintptr_t)target <= (uintptr_t)source)
        while (n--) *target++ = *source++;
    else
        while (n--) target[n] = source[n];
    return to;
}

void *memset(void *to, int byte, size_t n) {
    uint8_t *target = to;
    while (n--) *target++ = (uint8_t)byte;
    return to;
}
