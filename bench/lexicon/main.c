// Runs a program through the lexicon, or looks a name up.
//
//     bench lexicon PROGRAM TURNS       one line: result, steps, nanoseconds
//     bench find THROUGH NAME TURNS     the name again and again: through the lexicon (1), or in a dictionary (0)
#define _POSIX_C_SOURCE 199309L
#include <stdint.h>
#include <stdio.h>
#include <stdlib.h>
#include <string.h>
#include <time.h>

struct outcome {
    uint32_t left; // steps
    uint16_t event;
    uint16_t depth;
};

void lexicon_run(const uint8_t *source, size_t size, struct outcome *outcome, uint16_t *cells, size_t count);
uint32_t look_up(int through, const uint8_t *name, size_t size, uint32_t turns);

static const char *sources[][2] = {
    {"loop", ": EMPTY 30000 0 DO LOOP ; : TURNS %d 0 DO EMPTY LOOP 30000 ;"},
    {"calls", ": NOTHING ; "
              ": EIGHT NOTHING NOTHING NOTHING NOTHING NOTHING NOTHING NOTHING NOTHING ; "
              ": MANY 1000 0 DO EIGHT LOOP ; : TURNS %d 0 DO MANY LOOP 8000 ;"},
    {"fib", ": FIB DUP 2 < IF EXIT THEN 1- DUP ITSELF SWAP 1- ITSELF + ; "
            ": TURNS %d 0 DO 20 FIB DROP LOOP 20 FIB ;"},
    {"execute", "CREATE SELF 2 ALLOT "
                ": FIB DUP 2 < IF EXIT THEN 1- DUP SELF @ EXECUTE SWAP 1- SELF @ EXECUTE + ; "
                ": TURNS ['] FIB SELF ! %d 0 DO 20 FIB DROP LOOP 20 FIB ;"},
    {"deferred", "CREATE SELF 2 ALLOT : FIB' SELF @ EXECUTE ; "
                 ": FIB DUP 2 < IF EXIT THEN 1- DUP FIB' SWAP 1- FIB' + ; "
                 ": TURNS ['] FIB SELF ! %d 0 DO 20 FIB DROP LOOP 20 FIB ;"},
    {"sieve", "8190 CONSTANT SIZE CREATE FLAGS 8190 ALLOT : SIEVE FLAGS SIZE 1 FILL 0 SIZE 0 DO "
              "FLAGS I + C@ IF I DUP + 3 + DUP I + "
              "BEGIN DUP SIZE < WHILE 0 OVER FLAGS + C! OVER + REPEAT DROP DROP 1+ THEN LOOP ; "
              ": TURNS %d 0 DO SIEVE DROP LOOP SIEVE ;"},
    {"sort", "200 CONSTANT SIZE CREATE ITEMS 400 ALLOT "
             ": FILLED 12345 SIZE 0 DO 25173 * 13849 + DUP I DUP + ITEMS + ! LOOP DROP ; "
             ": PASS ITEMS SWAP 0 DO DUP @ OVER 2+ @ OVER OVER > IF ROT SWAP OVER ! SWAP OVER 2+ ! "
             "ELSE DROP DROP THEN 2+ LOOP DROP ; "
             ": SORTED FILLED SIZE 1- 0 DO SIZE 1- I - PASS LOOP ; "
             ": CHECKED 0 SIZE 1- 0 DO ITEMS I DUP + + DUP @ SWAP 2+ @ > + LOOP ITEMS SIZE + @ + ; "
             ": TURNS %d 0 DO SORTED LOOP SORTED CHECKED ;"},
    {"matrix", "20 CONSTANT SIZE 40 CONSTANT ROW CREATE A 800 ALLOT CREATE B 800 ALLOT CREATE C 800 ALLOT "
               ": FILLED 400 0 DO I 7 AND I DUP + A + ! I 5 AND I DUP + B + ! LOOP ; "
               ": DOT 0 SIZE 0 DO >R OVER @ OVER @ * R> + ROT 2+ ROT ROW + ROT LOOP >R DROP DROP R> ; "
               ": LINE SIZE 0 DO OVER B I DUP + + DOT OVER ! 2+ LOOP DROP DROP ; "
               ": MULTIPLIED SIZE 0 DO A ROW I * + C ROW I * + LINE LOOP ; "
               ": SUM 0 400 0 DO I DUP + C + @ + LOOP ; "
               ": TURNS FILLED %d 0 DO MULTIPLIED LOOP MULTIPLIED SUM ;"},
    {"gcd", ": GCD BEGIN DUP WHILE SWAP OVER MOD REPEAT DROP ; "
            ": GCDS 0 100 1 DO 100 1 DO J 97 * I 89 * GCD + LOOP LOOP ; "
            ": TURNS %d 0 DO GCDS DROP LOOP GCDS ;"},
    {"scale", ": SCALED 330 4096 */ 50 - 0 MAX 500 MIN ; "
              ": READINGS 0 1000 0 DO I 7 * SCALED + LOOP ; "
              ": TURNS %d 0 DO READINGS DROP LOOP READINGS ;"},
    {"records", "CREATE A 768 ALLOT CREATE B 768 ALLOT "
                ": FILLED 768 0 DO I A I + C! LOOP ; "
                ": REVERSED A B 756 + 64 0 DO OVER OVER 12 CMOVE 12 - SWAP 12 + SWAP LOOP DROP DROP ; "
                ": TURNS FILLED %d 0 DO REVERSED LOOP REVERSED B @ ;"},
};

static uint64_t now(void) {
    struct timespec t;
    clock_gettime(CLOCK_PROCESS_CPUTIME_ID, &t);
    return (uint64_t)t.tv_sec * 1000000000u + (uint64_t)t.tv_nsec;
}

int main(int argc, char **argv) {
    if (argc == 5 && strcmp(argv[1], "find") == 0) {
        printf("%u\n", look_up(atoi(argv[2]), (const uint8_t *)argv[3], strlen(argv[3]), (uint32_t)atoi(argv[4])));
        return 0;
    }
    for (size_t i = 0; argc == 4 && i < sizeof sources / sizeof sources[0]; i++) {
        if (strcmp(argv[2], sources[i][0]) != 0)
            continue;
        char text[900];
        snprintf(text, sizeof text, sources[i][1], atoi(argv[3]));
        struct outcome outcome = {1000000000, 0, 0};
        uint16_t cells[1] = {0};
        uint64_t start = now();
        lexicon_run((const uint8_t *)text, strlen(text), &outcome, cells, 1);
        uint64_t took = now() - start;
        printf("%s %s event %u depth %u result %u steps %u nanos %llu\n", argv[2], argv[3], outcome.event,
               outcome.depth, cells[0], 1000000000 - outcome.left, (unsigned long long)took);
        return outcome.event != 0 || outcome.depth != 1;
    }
    return 2;
}
