#include <stdio.h>
#include <stdlib.h>
#include <string.h>

#include "heats.h"
#include "recorded.h"
#include "stopwatch.h"

struct heat {
    const struct work *work;
    struct record *calls;
    size_t count, asked[RECORD_KINDS], rounds;
    double times[RACERS][ROUNDS];
};

void must(int fine, const char *why)
{
    if (!fine) {
        fprintf(stderr, "bench: %s\n", why);
        exit(1);
    }
}

/* Does a work once, and counts by kind the Ed25519 calls that it makes. */
static size_t record(enum racer racer, const struct work *w, const struct record **calls, size_t asked[RECORD_KINDS])
{
    size_t count, i;
    w->lay_out(w->of);
    record_start();
    must(kes_number(w->call(racer, w->of)) == KES_DONE, "a work is refused");
    count = record_end(calls);
    for (i = 0; i < count; i++)
        asked[(*calls)[i].kind]++;
    return count;
}

/* The floor is what the library asks; the peer must ask as often. */
static void prepare(struct heat *heat, const struct work *work)
{
    size_t peers[RECORD_KINDS] = {0};
    const struct record *calls;
    heat->work = work;
    record(PLAIN, work, &calls, peers);
    heat->count = record(LIBRARY, work, &calls, heat->asked);
    must(memcmp(peers, heat->asked, sizeof peers) == 0, "library and plain C ask Ed25519 not equally often");
    heat->calls = malloc(heat->count * sizeof *calls);
    must(heat->calls != NULL, "no memory");
    memcpy(heat->calls, calls, heat->count * sizeof *calls);
}

static void run(enum racer racer, const struct heat *heat)
{
    if (racer == FLOOR)
        replay(heat->calls, heat->count);
    else
        must(kes_number(heat->work->call(racer, heat->work->of)) == KES_DONE, "a work is refused");
}

/* Nanoseconds of one call: processor time, which other programs take no part in. Laying out what is lent is in it for all three. */
static double turn(enum racer racer, const struct heat *heat)
{
    double start = nanoseconds(CLOCK_PROCESS_CPUTIME_ID);
    int i;
    for (i = 0; i < heat->work->calls; i++) {
        heat->work->lay_out(heat->work->of);
        run(racer, heat);
    }
    return (nanoseconds(CLOCK_PROCESS_CPUTIME_ID) - start) / heat->work->calls;
}

/* A turn that begins elsewhere on the stack in every round: at a few places of 256 libsodium's Ed25519 was seen to take up to 1.4 times as
 * long, which would strike one racer in every round and spare the others. */
static double turn_elsewhere(int round, enum racer racer, const struct heat *heat)
{
    volatile uint8_t shift[16 * (1 + round * 37 % 256)];
    shift[0] = 0;
    return turn(racer, heat) + shift[0];
}

/* Each takes its turn, another one first in every round. */
static void race_once(int round, struct heat *heat)
{
    int i;
    for (i = 0; i < RACERS; i++) {
        enum racer racer = (enum racer)((i + round) % RACERS);
        heat->times[racer][heat->rounds] = turn_elsewhere(round, racer, heat);
    }
    heat->rounds++;
}

/* The median of what each round found: when the machine slows down for a while, it slows both. */
static double ratio(const struct heat *heat, enum racer racer, enum racer other)
{
    double each[ROUNDS];
    size_t i;
    for (i = 0; i < heat->rounds; i++)
        each[i] = heat->times[racer][i] / heat->times[other][i];
    return median(each, heat->rounds);
}

static void print_row(struct heat *heat)
{
    int i;
    printf("%s\t%.4f\t%.4f\t%.4f", heat->work->name, ratio(heat, LIBRARY, FLOOR), ratio(heat, PLAIN, FLOOR), ratio(heat, LIBRARY, PLAIN));
    for (i = 0; i < RACERS; i++)
        printf("\t%.1f", median(heat->times[i], heat->rounds));
    for (i = 0; i < RECORD_KINDS; i++)
        printf("\t%zu", heat->asked[i]);
    printf("\t%s\n", heat->work->aim);
}

void race_works(const struct work *works, size_t count)
{
    struct heat *heats = calloc(count, sizeof *heats);
    int round;
    size_t i;
    must(heats != NULL, "no memory");
    for (i = 0; i < count; i++)
        prepare(&heats[i], &works[i]);
    for (round = 0; round < ROUNDS; round++)
        for (i = 0; i < count; i++)
            if (!works[i].dear || round % DEAR_EVERY == 0)
                race_once(round, &heats[i]);
    for (i = 0; i < count; i++)
        print_row(&heats[i]);
}
