// Runs a program by one of the machines, or all of them on many small bodies.
//
//     bench MACHINE PROGRAM TURNS [ROUNDS]    one line: result, steps, least nanoseconds of the rounds
//     bench check COUNT                       compares the machines on COUNT random bodies
#define _POSIX_C_SOURCE 199309L
#include "bodies.h"
#include "programs.h"
#include <stdio.h>
#include <stdlib.h>
#include <string.h>
#include <time.h>

typedef void machine(const uint16_t *, size_t, const struct word *, size_t, uint16_t, struct outcome *, uint16_t *,
                     size_t, uint8_t *, size_t);

static machine *named(const char *name) {
    if (strcmp(name, "limit") == 0)
        return limit_run;
    if (strcmp(name, "machine") == 0)
        return machine_run;
    if (strcmp(name, "calling") == 0)
        return machine_run_calling;
    return NULL;
}

static uint64_t now(void) {
    struct timespec t;
    clock_gettime(CLOCK_PROCESS_CPUTIME_ID, &t);
    return (uint64_t)t.tv_sec * 1000000000u + (uint64_t)t.tv_nsec;
}

static int measure(machine *run, const char *name, unsigned turns, unsigned rounds) {
    for (size_t p = 0; p < sizeof programs / sizeof programs[0]; p++) {
        const struct program *program = &programs[p];
        if (strcmp(program->name, name) != 0)
            continue;
        program->code[program->turns] = (uint16_t)turns;
        uint64_t least = UINT64_MAX;
        struct outcome outcome = {0};
        uint16_t cells[1] = {0};
        uint8_t bytes[1];
        for (unsigned i = 0; i < rounds; i++) {
            outcome.left = 1000000000;
            uint64_t start = now();
            run(program->code, program->size, program->words, program->count, program->words[program->count - 1].value,
                &outcome, cells, 1, bytes, 0);
            uint64_t took = now() - start;
            if (took < least)
                least = took;
        }
        printf("%s %u event %u depth %u result %u steps %u nanos %llu\n", name, turns, outcome.event, outcome.depth,
               cells[0], 1000000000 - outcome.left, (unsigned long long)least);
        return outcome.event == DONE && outcome.depth == 1 && cells[0] == program->result ? 0 : 1;
    }
    return 2;
}

// after a fault the data stack may be any
static int differ(const struct outcome *a, const uint16_t *x, const struct outcome *b, const uint16_t *y) {
    if (a->event != b->event || a->left != b->left)
        return 1;
    if (a->event != DONE)
        return 0;
    return a->depth != b->depth || memcmp(x, y, a->depth * sizeof x[0]) != 0;
}

static int check(unsigned count) {
    static const struct {
        machine *run;
        const char *name;
    } others[] = {{machine_run, "machine"},
                  {machine_run_calling, "calling"},
                  {machine_run_unprepared, "calling, unprepared"}};
    static uint8_t bytes[2][65536];
    static struct bodies it;
    unsigned events[OTHER + 1] = {0};
    unsigned long long steps = 0;
    for (unsigned i = 0; i < count; i++) {
        uint16_t cells[2][256];
        some_bodies(&it);
        uint16_t place = it.words[it.count - 1].value;
        uint32_t budget = below(4) ? 200 + below(1000) : below(60);
        if (below(50) == 0)
            budget = 20000;
        struct outcome a = {budget, 0, 0};
        limit_run(it.code, it.size, it.words, it.count, place, &a, cells[0], 256, bytes[0], 65536);
        events[a.event]++;
        steps += budget - a.left;
        for (size_t m = 0; m < sizeof others / sizeof others[0]; m++) {
            struct outcome b = {budget, 0, 0};
            others[m].run(it.code, it.size, it.words, it.count, place, &b, cells[1], 256, bytes[1], 65536);
            if (!differ(&a, cells[0], &b, cells[1]) && memcmp(bytes[0], bytes[1], 65536) == 0)
                continue;
            printf("body %u differs: budget %u, limit %u %u %u, %s %u %u %u, from %u on:", i, budget, a.event, a.depth,
                   a.left, others[m].name, b.event, b.depth, b.left, place);
            for (size_t c = 0; c < it.size; c++)
                printf(" %u", it.code[c]);
            for (size_t w = 0; w < it.count; w++)
                printf(", %u is %s %u", FIRST_USER_TOKEN + (unsigned)w, it.words[w].is_body ? "the body at" : "the cell",
                       it.words[w].value);
            printf("\n");
            return 1;
        }
    }
    printf("%u bodies of %llu steps end alike by all machines:", count, steps);
    for (unsigned e = 0; e <= OTHER; e++)
        printf(" %u", events[e]);
    printf("\n");
    return 0;
}

int main(int argc, char **argv) {
    if (argc == 3 && strcmp(argv[1], "check") == 0)
        return check((unsigned)strtoul(argv[2], NULL, 10));
    machine *run = argc > 3 ? named(argv[1]) : NULL;
    if (run == NULL)
        return 2;
    unsigned rounds = argc > 4 ? (unsigned)strtoul(argv[4], NULL, 10) : 1;
    return measure(run, argv[2], (unsigned)strtoul(argv[3], NULL, 10), rounds);
}
