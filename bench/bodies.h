// Random bodies, for machines that have to end alike on them.
#ifndef BODIES_H
#define BODIES_H
#include "bench.h"

enum { MOST_CELLS = 4096, MOST_WORDS = 12 };

// Cells, and the words whose bodies and values they name. The last word is the one to run.
struct bodies {
    uint16_t code[MOST_CELLS];
    size_t size;
    struct word words[MOST_WORDS];
    size_t count;
};

// A number below `most`, from a sequence of its own that is the same in each run.
uint32_t below(uint32_t most);

// Bodies with all of the machine's own words but QUIT and ABORT, all structures, calls, EXECUTE, and stacks up to the full
// ones. They keep what the compiler promises of its cells, and nothing else: most end by a fault.
void some_bodies(struct bodies *bodies);

#endif
