/* Races the library's calls against the same in plain C, and against the Ed25519 calls alone that the library makes for them: the floor.
 * Prints a row for each work, as results.py reads it. */
#include <stdio.h>
#include <string.h>

#include <sodium.h>

#include "fair_works.h"
#include "heats.h"
#include "schemes.h"
#include "stopwatch.h"
#include "whole_works.h"

enum { MAKE, STEP, LEAP, SIGN, VERIFY, KINDS };
enum { KEY_WORKS = KINDS * HEIGHTS, WORKS = KEY_WORKS + FAIR_WORKS + WHOLE_WORKS };

/* A key at step 0, with a signature of it. */
struct key {
    struct heights of;
    size_t table_len, signature_len;
    uint8_t table[KES_TABLE_MAX], key[KES_KEY_SIZE], signature[KES_SIGNATURE_MAX];
};

/* As long as a journal's: card, serial, amount. */
static const uint8_t message[27] = "111122223333444412345250000";
static const uint8_t first_seed[KES_SEED_SIZE] = "a race may take a fixed seed...";

static struct key keys[HEIGHTS];
static uint8_t seed[KES_SEED_SIZE], table[KES_TABLE_MAX], signature[KES_SIGNATURE_MAX];
static uint64_t tally;

static const struct scheme *scheme_of(enum racer racer) { return racer == PLAIN ? &plain : &library; }

static uint64_t make(enum racer racer, const void *of)
{
    const struct key *k = of;
    return make_by(scheme_of(racer), k->of, seed, sizeof seed, table, k->table_len, &tally);
}

static uint64_t step(enum racer racer, const void *of)
{
    const struct key *k = of;
    return scheme_of(racer)->move(table, k->table_len, 1, &tally);
}

/* The worst move, by the rules and in this library: it parts at the top tree's top bit, which grows half of it and all of every tree
 * below, and it jumps over all steps between of each tree but the last, each a hash. */
static uint64_t leap(enum racer racer, const void *of)
{
    const struct key *k = of;
    return scheme_of(racer)->move(table, k->table_len, steps(k->of) - 1, &tally);
}

static uint64_t sign(enum racer racer, const void *of)
{
    const struct key *k = of;
    return scheme_of(racer)->sign(table, k->table_len, message, sizeof message, signature, k->signature_len, &tally);
}

static uint64_t verify(enum racer racer, const void *of)
{
    const struct key *k = of;
    return verify_by(scheme_of(racer), k->of, k->key, sizeof k->key, 0, message, sizeof message, k->signature, k->signature_len);
}

static const struct {
    const char *name;
    uint64_t (*of)(enum racer racer, const void *of);
    int calls, grows; /* a tree of height 12, which takes long */
    const char *aim;
} kinds[KINDS] = {
    {"make", make, 1, 1, "1.10"},
    {"move 0 to 1", step, 10, 0, "1.10"},
    {"worst move", leap, 1, 1, "1.10"},
    {"sign", sign, 10, 0, "1.05"},
    {"verify", verify, 10, 0, "1.05"},
};

static void lay_out(const void *of)
{
    const struct key *k = of;
    memcpy(seed, first_seed, sizeof seed);
    memcpy(table, k->table, k->table_len);
}

static void make_key(int h)
{
    struct key *k = &keys[h];
    k->of = heights[h];
    k->table_len = table_size(k->of);
    k->signature_len = signature_size(k->of);
    lay_out(k);
    must(kes_number(make(LIBRARY, k)) == KES_DONE, "no key is made");
    must(kes_release(table, k->table_len, 0, steps(k->of)) == KES_DONE, "window 0 is not released");
    must(kes_release(table, k->table_len, 1, steps(k->of)) == KES_DONE, "window 1 is not released");
    memcpy(k->table, table, k->table_len);
    must(kes_read_key(table, k->table_len, k->key, sizeof k->key) == KES_DONE, "no key is read");
    must(sign(LIBRARY, k) == KES_DONE, "nothing is signed");
    memcpy(k->signature, signature, k->signature_len);
}

/* The heights of a key, in brackets. */
static const char *told(const struct key *k)
{
    static char text[16];
    if (k->of.trees == 2)
        snprintf(text, sizeof text, "(%u,%u)", (unsigned)k->of.h1 % 100, (unsigned)k->of.h2 % 100);
    else
        snprintf(text, sizeof text, "(%u,%u,%u)", (unsigned)k->of.h1 % 100, (unsigned)k->of.h2 % 100, (unsigned)k->of.h3 % 100);
    return text;
}

static struct work key_work(int w, const struct key *k)
{
    struct work work = {"", lay_out, kinds[w].of, k, kinds[w].calls, kinds[w].grows && k->of.h1 == KES_HEIGHT_MAX, kinds[w].aim};
    snprintf(work.name, sizeof work.name, "%s %s", kinds[w].name, told(k));
    return work;
}

/* Nanoseconds of processor time of one catch-up to step 1, over a key as it was made. */
static double caught_up(const struct key *k)
{
    double began;
    lay_out(k);
    began = nanoseconds(CLOCK_PROCESS_CPUTIME_ID);
    must(kes_count(kes_catch_up(table, k->table_len, 1, &tally)) > 0, "a key does not catch up");
    return nanoseconds(CLOCK_PROCESS_CPUTIME_ID) - began;
}

/* Of one that stays: many between two readings of the clock, which takes longer than it. */
static double stayed(const struct key *k)
{
    enum { TIMES = 1000 };
    double began;
    int i;
    lay_out(k);
    began = nanoseconds(CLOCK_PROCESS_CPUTIME_ID);
    for (i = 0; i < TIMES; i++)
        must(kes_catch_up(table, k->table_len, 0, &tally) == KES_DONE, "a key does not stay");
    return (nanoseconds(CLOCK_PROCESS_CPUTIME_ID) - began) / TIMES;
}

/* A catch-up that stays asks Ed25519 for nothing and has no floor: it is held against one from 0 to 1. */
static void tell_stay(const struct key *k)
{
    static double stays[ROUNDS], moves[ROUNDS];
    double stay, move;
    int round;
    for (round = 0; round < ROUNDS; round++) {
        stays[round] = stayed(k);
        moves[round] = caught_up(k);
    }
    stay = median(stays, ROUNDS);
    move = median(moves, ROUNDS);
    printf("# catch-up that stays %s: %.0f ns, %.2f percent of one from 0 to 1; aim: below 1: %s\n", told(k), stay, 100 * stay / move,
           100 * stay < move ? "met" : "missed");
}

int main(void)
{
    static struct work works[WORKS];
    int w, h;
    must(sodium_init() >= 0, "libsodium does not start");
    for (h = 0; h < HEIGHTS; h++)
        make_key(h);
    for (w = 0; w < KINDS; w++)
        for (h = 0; h < HEIGHTS; h++)
            works[w * HEIGHTS + h] = key_work(w, &keys[h]);
    fair_works(works + KEY_WORKS);
    whole_works(works + KEY_WORKS + FAIR_WORKS);
    printf("# calls: libsodium %s; medians of %d rounds (%d where trees of height 12 grow, or a fair or a plain tree of 256 keys) of processor time, interleaved\n",
           sodium_version_string(), ROUNDS, ROUNDS / DEAR_EVERY);
    tell_fair_move();
    for (h = 0; h < HEIGHTS; h++)
        tell_stay(&keys[h]);
    race_works(works, WORKS);
    printf("# load %.1f\n", load());
    return 0;
}
