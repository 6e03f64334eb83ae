/* Works that are raced by the library, by the same in plain C, and by the Ed25519 calls alone that the library makes for them: the floor. */
#ifndef HEATS_H
#define HEATS_H

#include <stddef.h>
#include <stdint.h>

enum racer { LIBRARY, PLAIN, FLOOR, RACERS };
enum { ROUNDS = 400, DEAR_EVERY = 8 };

struct work {
    char name[32];
    void (*lay_out)(const void *of);
    uint64_t (*call)(enum racer racer, const void *of); /* of LIBRARY or PLAIN; answers as kes.h says */
    const void *of;
    int calls; /* in a turn: short ones go several times, so that each is met with its code in the cache */
    int dear;  /* takes long, and goes only every so many rounds */
    const char *aim;
};

/* Ends the program where something is not fine. */
void must(int fine, const char *why);

/* Races all works, interleaved, and prints a row for each, as results.py reads it. */
void race_works(const struct work *works, size_t count);

#endif
