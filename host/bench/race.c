/* Races the proved BLAKE2b against libsodium's and against C code that follows RFC 7693's.
 *   race count   under callgrind: writes one profile for each row of the table
 *   race         prints the table; the instruction counts of its rows come on standard input */
#include <stdint.h>
#include <stdio.h>
#include <stdlib.h>
#include <string.h>

#include <sodium.h>
#include <valgrind/callgrind.h>

#include "rfc7693_blake2b.h"
#include "stopwatch.h"

/* The proved functions. The first is offered in kes.h; the others are there for the race alone. */
uint32_t kes_hash(const uint8_t *message, size_t message_len, uint8_t *digest, size_t digest_len);
void race_running(const uint8_t *message, size_t message_len, uint8_t digest[32]);
void race_32_32(const uint8_t x[32], const uint8_t y[32], uint8_t digest[32]);

typedef void hash_of(const uint8_t *message, size_t len, uint8_t digest[32]);

static void one_shot(const uint8_t *message, size_t len, uint8_t digest[32])
{
    kes_hash(message, len, digest, 32);
}

static void two_halves(const uint8_t *message, size_t len, uint8_t digest[32])
{
    race_32_32(message, message + len / 2, digest);
}

static void libsodium(const uint8_t *message, size_t len, uint8_t digest[32])
{
    crypto_generichash(digest, 32, message, len, NULL, 0);
}

static void reference(const uint8_t *message, size_t len, uint8_t digest[32])
{
    blake2b(digest, 32, NULL, 0, message, len);
}

enum { LIMIT = 4096, ROUNDS = 2001, SIZES = 4, HASHES = 5, LIBSODIUM = 3, REFERENCE = 4 };

static const size_t sizes[SIZES] = {33, 64, 128, LIMIT};

static const struct {
    const char *name;
    hash_of *of;
    size_t only; /* the one size that it takes, or 0 */
} hashes[HASHES] = {
    {"one-shot", one_shot, 0},
    {"running", race_running, 0},
    {"32 and 32", two_halves, 64},
    {"libsodium", libsodium, 0},
    {"RFC 7693", reference, 0},
};

static uint8_t message[LIMIT], digest[32];
static double taken[SIZES][HASHES][ROUNDS];

static int races(int h, size_t len)
{
    return hashes[h].only == 0 || hashes[h].only == len;
}

static void check(int h, size_t len)
{
    uint8_t expected[32];
    libsodium(message, len, expected);
    memset(digest, 0, sizeof digest);
    hashes[h].of(message, len, digest);
    if (memcmp(digest, expected, sizeof digest) != 0) {
        fprintf(stderr, "bench: %s and libsodium differ on %zu bytes\n", hashes[h].name, len);
        exit(1);
    }
}

static void check_all(void)
{
    for (size_t len = 0; len <= LIMIT; len++)
        for (int h = 0; h < HASHES; h++)
            if (races(h, len))
                check(h, len);
}

/* Once unprofiled, so that the dynamic linker's work at a first call is not counted. */
static void count(int h, size_t len)
{
    hashes[h].of(message, len, digest);
    CALLGRIND_ZERO_STATS;
    hashes[h].of(message, len, digest);
    CALLGRIND_DUMP_STATS;
}

static void count_all(void)
{
    for (int s = 0; s < SIZES; s++)
        for (int h = 0; h < HASHES; h++)
            if (races(h, sizes[s]))
                count(h, sizes[s]);
}

/* Nanoseconds of one call, over so many calls that the clock's own cost vanishes. */
static double timed(int h, size_t len)
{
    size_t calls = 4 * LIMIT / (len < 128 ? 128 : len);
    double start = nanoseconds(CLOCK_MONOTONIC);
    for (size_t i = 0; i < calls; i++)
        hashes[h].of(message, len, digest);
    return (nanoseconds(CLOCK_MONOTONIC) - start) / calls;
}

/* Every hash takes its turn in every round, so that what slows the machine slows them all. */
static void time_all(void)
{
    for (int round = 0; round < ROUNDS; round++)
        for (int s = 0; s < SIZES; s++)
            for (int h = 0; h < HASHES; h++)
                if (races(h, sizes[s]))
                    taken[s][h][round] = timed(h, sizes[s]);
}

static void print_row(int s, int h)
{
    long instructions = 0;
    if (scanf("%ld", &instructions) != 1) {
        fprintf(stderr, "bench: an instruction count is missing\n");
        exit(1);
    }
    double ns = median(taken[s][h], ROUNDS);
    printf("%5zu  %-10s %9.1f %12.2f %10.2f %13ld\n", sizes[s], hashes[h].name, ns, ns / median(taken[s][LIBSODIUM], ROUNDS),
           ns / median(taken[s][REFERENCE], ROUNDS), instructions);
}

/* The load is told because a busy machine was seen to slow scalar code more than libsodium's vector code. */
static void print_heading(void)
{
    printf("all agree on 0 to %d bytes; libsodium %s; medians of %d rounds, interleaved; load %.1f\n\n", LIMIT,
           sodium_version_string(), ROUNDS, load());
    printf("bytes  hash              ns  / libsodium  / RFC 7693  instructions\n");
}

static void print_all(void)
{
    for (int s = 0; s < SIZES; s++)
        for (int h = 0; h < HASHES; h++)
            if (races(h, sizes[s]))
                print_row(s, h);
}

int main(int argc, char **argv)
{
    if (sodium_init() < 0)
        return 1;
    for (size_t i = 0; i < LIMIT; i++)
        message[i] = (uint8_t)(i * 37 + i / 251);
    if (argc > 1 && strcmp(argv[1], "count") == 0) {
        count_all();
        return 0;
    }
    check_all();
    time_all();
    print_heading();
    print_all();
    return 0;
}
