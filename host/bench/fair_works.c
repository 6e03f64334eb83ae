#include <stdio.h>
#include <string.h>

#include "fair_works.h"
#include "fairs.h"
#include "stopwatch.h"

/* A cache at step 0, with a signature of it. */
struct cache {
    uint64_t n;
    size_t seeds_len, cache_len;
    uint8_t cache[KES_FAIR_CACHE_MAX], key[KES_KEY_SIZE], signature[KES_FAIR_SIGNATURE_SIZE];
};

enum { SMALL, LARGE, CACHES, MOVES = 64 };

/* A sale, about as long as a journal's record. */
static const uint8_t message[27] = "111122223333444412345250000";

static struct cache caches[CACHES] = {{.n = 24}, {.n = KES_FAIR_MAX}};
static uint8_t master[KES_SEED_SIZE], seeds[KES_FAIR_SEEDS_SIZE(KES_FAIR_MAX)], lent[KES_FAIR_CACHE_MAX], key[KES_KEY_SIZE], signature[KES_FAIR_SIGNATURE_SIZE];
static uint64_t tally;

static void lay_out_seeds(const void *of)
{
    const struct cache *c = of;
    size_t i;
    memset(master, 7, sizeof master);
    for (i = 0; i < c->seeds_len; i++)
        seeds[i] = (uint8_t)(i / KES_SEED_SIZE + i);
}

static void lay_out_cache(const void *of)
{
    const struct cache *c = of;
    memcpy(lent, c->cache, c->cache_len);
}

/* Signing and verifying write nothing that has to be laid out again. */
static void lay_out_nothing(const void *of) { (void)of; }

static const struct fair *fair_of(enum racer racer) { return racer == PLAIN ? &plain_fair : &library_fair; }

static uint64_t make(enum racer racer, const void *of)
{
    const struct cache *c = of;
    return fair_of(racer)->make(c->n, master, sizeof master, seeds, c->seeds_len, lent, c->cache_len, key, sizeof key, &tally);
}

static uint64_t sign(enum racer racer, const void *of)
{
    const struct cache *c = of;
    return fair_of(racer)->sign(c->cache, c->cache_len, message, sizeof message, signature, sizeof signature, &tally);
}

static uint64_t verify(enum racer racer, const void *of)
{
    const struct cache *c = of;
    return fair_of(racer)->verify(c->n, c->key, sizeof c->key, 0, message, sizeof message, c->signature, sizeof c->signature);
}

static void make_cache(struct cache *c)
{
    c->seeds_len = kes_fair_seeds_size(c->n);
    c->cache_len = kes_fair_cache_size(c->n);
    lay_out_seeds(c);
    must(make(LIBRARY, c) == KES_DONE, "no cache is made");
    memcpy(c->cache, lent, c->cache_len);
    memcpy(c->key, key, sizeof key);
    must(sign(LIBRARY, c) == KES_DONE, "nothing is signed");
    memcpy(c->signature, signature, sizeof signature);
}

void fair_works(struct work works[FAIR_WORKS])
{
    make_cache(&caches[SMALL]);
    make_cache(&caches[LARGE]);
    works[0] = (struct work){"fair make (24)", lay_out_seeds, make, &caches[SMALL], 1, 0, "1.05"};
    works[1] = (struct work){"fair make (256)", lay_out_seeds, make, &caches[LARGE], 1, 1, "1.05"};
    works[2] = (struct work){"fair sign (256)", lay_out_nothing, sign, &caches[LARGE], 10, 0, "1.05"};
    works[3] = (struct work){"fair verify (256)", lay_out_nothing, verify, &caches[LARGE], 10, 0, "1.05"};
}

/* Nanoseconds of the move from step 0 to the last; of FLOOR, of memset over the same bytes. */
static double moved(enum racer racer)
{
    const struct cache *c = &caches[LARGE];
    double took = 0;
    int i;
    for (i = 0; i < MOVES; i++) {
        double start;
        lay_out_cache(c);
        start = nanoseconds(CLOCK_MONOTONIC);
        if (racer == FLOOR)
            memset(lent + 4, 0, 128 * (KES_FAIR_MAX - 1));
        else
            must(fair_of(racer)->move(lent, c->cache_len, KES_FAIR_MAX - 1) == KES_DONE, "a move is refused");
        took += nanoseconds(CLOCK_MONOTONIC) - start;
        __asm__ volatile("" : : "r"(lent) : "memory");
    }
    return took / MOVES;
}

void tell_fair_move(void)
{
    static double times[RACERS][ROUNDS];
    int round, racer;
    for (round = 0; round < ROUNDS; round++)
        for (racer = 0; racer < RACERS; racer++)
            times[racer][round] = moved((enum racer)racer);
    printf("# fair move 0 to 255 (256), which zeroes %u bytes: library %.0f ns, plain C %.0f ns, memset alone %.0f ns; no Ed25519 call\n",
           128 * (KES_FAIR_MAX - 1), median(times[LIBRARY], ROUNDS), median(times[PLAIN], ROUNDS), median(times[FLOOR], ROUNDS));
}
