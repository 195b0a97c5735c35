// Searches a dictionary for a name.
//
//     find WORDS NAME TURNS [apart | shared]     beside so many words of a user's own
//
// apart: FORTH is searched second. shared: they all share the strand of NAME in FORTH.
#include <stdint.h>
#include <stdio.h>
#include <stdlib.h>
#include <string.h>

uint32_t dictionary_search(_Bool apart, const uint8_t (*names)[32], size_t count, const uint8_t (*name)[32], uint32_t turns);

// the token of FORTH
#define FORTH 91u

static uint8_t names[4096][32];

static void named(uint8_t *to, const char *name) {
    to[0] = (uint8_t)strlen(name);
    memcpy(to + 1, name, to[0]);
}

// The strand of a name in FORTH, by the definition.
static uint32_t strand(const uint8_t *named) {
    uint32_t mix = 0, piece;
    size_t at = 0, length = named[0];
    do {
        piece = 0;
        for (size_t i = 0; i < 4 && at + i < length; i++)
            piece |= (uint32_t)named[1 + at + i] << (8 * i);
        mix = (mix + piece) * 2654435769u;
        at += 4;
    } while (at <= length);
    return (mix + FORTH) * 2654435769u >> 20;
}

int main(int argc, char **argv) {
    if (argc < 4)
        return 2;
    uint8_t name[1][32] = {{0}};
    named(name[0], argv[2]);
    size_t count = (size_t)atoi(argv[1]);
    int shared = argc > 4 && !strcmp(argv[4], "shared"), apart = argc > 4 && !shared;
    for (size_t i = 0, n = 0; i < count; n++) {
        char text[32];
        snprintf(text, sizeof text, "W%zu", n);
        named(names[i], text);
        if (!shared || strand(names[i]) == strand(name[0]))
            i++;
    }
    printf("%u\n", dictionary_search(apart, names, count, name, (uint32_t)atoi(argv[3])));
    return 0;
}
