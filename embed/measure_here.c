/* Measures on this machine, over a disk in memory: each call on a stack of its own, which is painted before and looked at after. For
 * Linux. */
#define _DEFAULT_SOURCE
#include <stdio.h>
#include <string.h>
#include <time.h>
#include <ucontext.h>

#include "disk.h"
#include "measure.h"

enum { STACK_BYTES = 1 << 18, PAINT = 0xA5 };

static _Alignas(16) uint8_t stack[STACK_BYTES];
static ucontext_t here, there;
static void (*called)(void);

static void on_stack(void) { called(); }

size_t touched_by(void (*call)(void)) {
    called = call;
    memset(stack, PAINT, sizeof stack);
    getcontext(&there);
    there.uc_stack.ss_sp = stack;
    there.uc_stack.ss_size = sizeof stack;
    there.uc_link = &here;
    makecontext(&there, on_stack, 0);
    swapcontext(&here, &there);
    size_t untouched = 0;
    while (untouched < sizeof stack && stack[untouched] == PAINT) untouched++;
    return sizeof stack - untouched;
}

uint32_t milliseconds(void) { return (uint32_t)(clock() / (CLOCKS_PER_SEC / 1000)); }

void tell_memory(const char *name, size_t touched, size_t heap) { printf("%s: stack %zu heap %zu\n", name, touched, heap); }

void tell_time(uint32_t steps, uint32_t of_milliseconds) { printf("steps: %u in %u ms\n", steps, of_milliseconds); }

void tell_refusal(const char *name, uint8_t answer) { printf("%s: %s\n", name, silgwyrad_text(answer)); }

int main(void) {
    static struct disk disk;
    const struct silgwyrad_device device = device_of(&disk);
    disk.sectors = PAGED_SECTORS;
    disk.in_unit = 1;
    disk.stop_at = disk.fail_at = NEVER;
    return measure(&device) ? 1 : 0;
}
