// The programs, as the compiler lays them down. The last word of each is run; its number of turns stands at `turns`.
#include "bench.h"

struct program {
    const char *name;
    uint16_t *code;
    size_t size;
    const struct word *words;
    size_t count;
    size_t turns;
    uint16_t result; // what it leaves
};

// : EMPTY 30000 0 DO LOOP ;
// : TURNS n 0 DO EMPTY LOOP 30000 ;
static uint16_t loop_code[] = {
    LITERAL, 30000, LITERAL, 0, DO, LOOP, 5, END,
    LITERAL, 1, LITERAL, 0, DO, 133, LOOP, 13, LITERAL, 30000, END,
};
static const struct word loop_words[] = {{1, 0}, {1, 8}};

// : NOTHING ;
// : EIGHT NOTHING NOTHING NOTHING NOTHING NOTHING NOTHING NOTHING NOTHING ;
// : MANY 1000 0 DO EIGHT LOOP ;
// : TURNS n 0 DO MANY LOOP 8000 ;
static uint16_t calls_code[] = {
    END,
    133, 133, 133, 133, 133, 133, 133, 133, END,
    LITERAL, 1000, LITERAL, 0, DO, 134, LOOP, 15, END,
    LITERAL, 1, LITERAL, 0, DO, 135, LOOP, 24, LITERAL, 8000, END,
};
static const struct word calls_words[] = {{1, 0}, {1, 1}, {1, 10}, {1, 19}};

// : FIB DUP 2 < IF EXIT THEN 1- DUP FIB SWAP 1- FIB + ;    (the word calls itself)
// : TURNS n 0 DO 20 FIB DROP LOOP 20 FIB ;
static uint16_t fib_code[] = {
    36, LITERAL, 2, 18, TEST, 7, 38, 14, 36, 133, 54, 14, 133, 5, END,
    LITERAL, 1, LITERAL, 0, DO, LITERAL, 20, 133, 35, LOOP, 20, LITERAL, 20, 133, END,
};
static const struct word fib_words[] = {{1, 0}, {1, 15}};

// CREATE SELF 2 ALLOT
// : FIB DUP 2 < IF EXIT THEN 1- DUP SELF @ EXECUTE SWAP 1- SELF @ EXECUTE + ;
// : TURNS ['] FIB SELF ! n 0 DO 20 FIB DROP LOOP 20 FIB ;
static uint16_t execute_code[] = {
    36, LITERAL, 2, 18, TEST, 7, 38, 14, 36, 133, 23, 37, 54, 14, 133, 23, 37, 5, END,
    LITERAL, 134, 133, 1, LITERAL, 1, LITERAL, 0, DO, LITERAL, 20, 134, 35, LOOP, 28, LITERAL, 20, 134, END,
};
static const struct word execute_words[] = {{0, 1280}, {1, 0}, {1, 19}};

// CREATE SELF 2 ALLOT  : FIB' SELF @ EXECUTE ;
// : FIB DUP 2 < IF EXIT THEN 1- DUP FIB' SWAP 1- FIB' + ;
// : TURNS ['] FIB SELF ! n 0 DO 20 FIB DROP LOOP 20 FIB ;
static uint16_t deferred_code[] = {
    133, 23, 37, END,
    36, LITERAL, 2, 18, TEST, 11, 38, 14, 36, 134, 54, 14, 134, 5, END,
    LITERAL, 135, 133, 1, LITERAL, 1, LITERAL, 0, DO, LITERAL, 20, 135, 35, LOOP, 28, LITERAL, 20, 135, END,
};
static const struct word deferred_words[] = {{0, 1280}, {1, 0}, {1, 4}, {1, 19}};

// 8190 CONSTANT SIZE  CREATE FLAGS SIZE ALLOT
// : SIEVE FLAGS SIZE 1 FILL 0 SIZE 0 DO
//     FLAGS I + C@ IF I DUP + 3 + DUP I +
//       BEGIN DUP SIZE < WHILE 0 OVER FLAGS + C! OVER + REPEAT DROP DROP 1+ THEN
//   LOOP ;
// : TURNS n 0 DO SIEVE DROP LOOP SIEVE ;
static uint16_t sieve_code[] = {
    134, 133, LITERAL, 1, 39, LITERAL, 0, 133, LITERAL, 0, DO,
    134, 40, 5, 27, TEST, 44, 40, 36, 5, LITERAL, 3, 5, 36, 40, 5,
    36, 133, 18, TEST, 41, LITERAL, 0, 48, 134, 5, 26, 48, 5, BACK, 26, 35, 35, 13,
    LOOP, 11, END,
    LITERAL, 1, LITERAL, 0, DO, 135, 35, LOOP, 52, 135, END,
};
static const struct word sieve_words[] = {{0, 8190}, {0, 1280}, {1, 0}, {1, 47}};

// 200 CONSTANT SIZE  CREATE ITEMS 400 ALLOT
// : FILLED 12345 SIZE 0 DO 25173 * 13849 + DUP I DUP + ITEMS + ! LOOP DROP ;
// : PASS ITEMS SWAP 0 DO
//     DUP @ OVER 2+ @ OVER OVER > IF ROT SWAP OVER ! SWAP OVER 2+ ! ELSE DROP DROP THEN 2+ LOOP DROP ;
// : SORTED FILLED SIZE 1- 0 DO SIZE 1- I - PASS LOOP ;
// : CHECKED 0 SIZE 1- 0 DO ITEMS I DUP + + DUP @ SWAP 2+ @ > + LOOP ITEMS SIZE + @ + ;
// : TURNS n 0 DO SORTED LOOP SORTED CHECKED ;
static uint16_t sort_code[] = {
    LITERAL, 12345, 133, LITERAL, 0, DO, LITERAL, 25173, 2, LITERAL, 13849, 5, 36, 40, 36, 5, 134, 5, 1, LOOP, 6, 35,
    END,
    134, 54, LITERAL, 0, DO, 36, 23, 48, 15, 23, 48, 48, 20, TEST, 48, 53, 54, 48, 1, 54, 48, 15, 1, JUMP, 50, 35,
    35, 15, LOOP, 28, 35, END,
    135, 133, 14, LITERAL, 0, DO, 133, 14, 40, 7, 136, LOOP, 61, END,
    LITERAL, 0, 133, 14, LITERAL, 0, DO, 134, 40, 36, 5, 5, 36, 23, 54, 15, 23, 20, 5, LOOP, 76, 134, 133, 5, 23, 5,
    END,
    LITERAL, 1, LITERAL, 0, DO, 137, LOOP, 101, 137, 138, END,
};
static const struct word sort_words[] = {{0, 200}, {0, 1280}, {1, 0}, {1, 23}, {1, 55}, {1, 69}, {1, 96}};

// 20 CONSTANT SIZE  40 CONSTANT ROW  CREATE A 800 ALLOT  CREATE B 800 ALLOT  CREATE C 800 ALLOT
// : FILLED 400 0 DO I 7 AND I DUP + A + ! I 5 AND I DUP + B + ! LOOP ;
// : DOT 0 SIZE 0 DO >R OVER @ OVER @ * R> + ROT 2+ ROT ROW + ROT LOOP >R DROP DROP R> ;
// : LINE SIZE 0 DO OVER B I DUP + + DOT OVER ! 2+ LOOP DROP DROP ;
// : MULTIPLIED SIZE 0 DO A ROW I * + C ROW I * + LINE LOOP ;
// : SUM 0 400 0 DO I DUP + C + @ + LOOP ;
// : TURNS FILLED n 0 DO MULTIPLIED LOOP MULTIPLIED SUM ;
static uint16_t matrix_code[] = {
    LITERAL, 400, LITERAL, 0, DO, 40, LITERAL, 7, 25, 40, 36, 5, 135, 5, 1, 40, LITERAL, 5, 25, 40, 36, 5, 136, 5, 1,
    LOOP, 5, END,
    LITERAL, 0, 133, LITERAL, 0, DO, 21, 48, 23, 48, 23, 2, 50, 5, 53, 15, 53, 134, 5, 53, LOOP, 34, 21, 35, 35, 50,
    END,
    133, LITERAL, 0, DO, 48, 136, 40, 36, 5, 5, 139, 48, 1, 15, LOOP, 59, 35, 35, END,
    133, LITERAL, 0, DO, 135, 134, 40, 2, 5, 137, 134, 40, 2, 5, 140, LOOP, 78, END,
    LITERAL, 0, LITERAL, 400, LITERAL, 0, DO, 40, 36, 5, 137, 5, 23, 5, LOOP, 99, END,
    138, LITERAL, 1, LITERAL, 0, DO, 141, LOOP, 115, 141, 142, END,
};
static const struct word matrix_words[] = {{0, 20}, {0, 40}, {0, 1280}, {0, 2080}, {0, 2880}, {1, 0},
                                           {1, 28}, {1, 55}, {1, 74}, {1, 92}, {1, 109}};

// : GCD BEGIN DUP WHILE SWAP OVER MOD REPEAT DROP ;
// : GCDS 0 100 1 DO 100 1 DO J 97 * I 89 * GCD + LOOP LOOP ;
// : TURNS n 0 DO GCDS DROP LOOP GCDS ;
static uint16_t gcd_code[] = {
    36, TEST, 8, 54, 48, 44, BACK, 0, 35, END,
    LITERAL, 0, LITERAL, 100, LITERAL, 1, DO, LITERAL, 100, LITERAL, 1, DO, 41, LITERAL, 97, 2, 40, LITERAL, 89, 2,
    133, 5, LOOP, 22, LOOP, 17, END,
    LITERAL, 1, LITERAL, 0, DO, 134, 35, LOOP, 42, 134, END,
};
static const struct word gcd_words[] = {{1, 0}, {1, 10}, {1, 37}};

// : SCALED 330 4096 */ 50 - 0 MAX 500 MIN ;
// : READINGS 0 1000 0 DO I 7 * SCALED + LOOP ;
// : TURNS n 0 DO READINGS DROP LOOP READINGS ;
static uint16_t scale_code[] = {
    LITERAL, 330, LITERAL, 4096, 3, LITERAL, 50, 7, LITERAL, 0, 42, LITERAL, 500, 43, END,
    LITERAL, 0, LITERAL, 1000, LITERAL, 0, DO, 40, LITERAL, 7, 2, 133, 5, LOOP, 22, END,
    LITERAL, 1, LITERAL, 0, DO, 134, 35, LOOP, 36, 134, END,
};
static const struct word scale_words[] = {{1, 0}, {1, 15}, {1, 31}};

// CREATE A 768 ALLOT  CREATE B 768 ALLOT
// : FILLED 768 0 DO I A I + C! LOOP ;
// : REVERSED A B 756 + 64 0 DO OVER OVER 12 CMOVE 12 - SWAP 12 + SWAP LOOP DROP DROP ;
// : TURNS FILLED n 0 DO REVERSED LOOP REVERSED B @ ;
static uint16_t records_code[] = {
    LITERAL, 768, LITERAL, 0, DO, 40, 133, 40, 5, 26, LOOP, 5, END,
    133, 134, LITERAL, 756, 5, LITERAL, 64, LITERAL, 0, DO, 48, 48, LITERAL, 12, 28, LITERAL, 12, 7, 54, LITERAL,
    12, 5, 54, LOOP, 23, 35, 35, END,
    135, LITERAL, 1, LITERAL, 0, DO, 136, LOOP, 47, 136, 134, 23, END,
};
static const struct word records_words[] = {{0, 1280}, {0, 2048}, {1, 0}, {1, 13}, {1, 41}};

#define PROGRAM(name, turns, result)                                                                                   \
    {                                                                                                                  \
        #name, name##_code, sizeof name##_code / sizeof name##_code[0], name##_words,                                  \
            sizeof name##_words / sizeof name##_words[0], turns, result                                                \
    }
static const struct program programs[] = {
    PROGRAM(loop, 9, 30000),
    PROGRAM(calls, 20, 8000),
    PROGRAM(fib, 16, 6765),
    PROGRAM(execute, 24, 6765),
    PROGRAM(deferred, 24, 6765),
    PROGRAM(sieve, 48, 1899),
    PROGRAM(sort, 97, 64483),
    PROGRAM(matrix, 111, 6064),
    PROGRAM(gcd, 38, 56620),
    PROGRAM(scale, 32, 36725),
    PROGRAM(records, 43, 62964),
};
