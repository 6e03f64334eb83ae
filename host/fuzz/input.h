/* A fuzzer's bytes, taken one by one. All zeros means nothing hostile, so a target starts from good calls. */
#ifndef INPUT_H
#define INPUT_H

#include <stddef.h>
#include <stdint.h>
#include <stdio.h>
#include <stdlib.h>

struct input {
    const uint8_t *at;
    size_t left;
};

static inline uint8_t next(struct input *in)
{
    if (in->left == 0)
        return 0;
    in->left--;
    return *in->at++;
}

/* A byte anywhere in 64 bits. */
static inline uint64_t wide(struct input *in)
{
    uint64_t byte = next(in);
    return byte << next(in) % 64;
}

/* Lays a byte over some place of these, by exclusive or. */
static inline void patch(struct input *in, uint8_t *bytes, size_t len)
{
    size_t at = next(in);
    at |= (size_t)next(in) << 8;
    if (len > 0)
        bytes[at % len] ^= next(in);
}

/* Ends the process so that the fuzzer keeps the input. */
static inline void wrong(const char *what)
{
    fprintf(stderr, "wrong: %s\n", what);
    abort();
}

#endif
