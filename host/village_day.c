/* Which heights for a desk in a village? Makes a key of three trees, tells how long it lasts, and lives it through: its first step, the
 * next, a year later, and its last.
 *     village_day H1 H2 H3 MINUTES     heights 0 to 8 each; MINUTES is the length of a step, 1 to 1440
 * Ends with 0 if every signature was accepted at its step and at no other, with 1 if not, and with 2 if it was not asked rightly.
 * What a desk does with its key and its files is in desk_day.c; here nothing is stored. */
#include <inttypes.h>
#include <stdio.h>
#include <stdlib.h>
#include <string.h>

#include "desk/random.h"
#include "desk/text.h"
#include "kes.h"

enum { DAY = 1440 };

static const uint8_t record[] = "4711\t1\t2500";
static uint8_t table[KES_TABLE_MAX], key[KES_KEY_SIZE], signature[KES_SIGNATURE_MAX];
static uint64_t h1, h2, h3, minutes, tally;

__attribute__((noreturn)) static void end(int status, const char *why)
{
    fprintf(stderr, "village_day: %s\n", why);
    exit(status);
}

static void need(int fine, const char *why)
{
    kes_wipe();
    if (!fine)
        end(1, why);
}

static uint32_t verified(uint64_t step)
{
    return kes3_verify(h1, h2, h3, key, sizeof key, step, record, sizeof record, signature, kes3_signature_size(h1, h2, h3));
}

/* A signature at the table's step is accepted there, and at the step before it or after it is not. */
static void sign(uint64_t step)
{
    uint64_t beside = step > 0 ? step - 1 : step + 1;
    need(kes_sign(table, kes3_table_size(h1, h2, h3), record, sizeof record, signature, kes3_signature_size(h1, h2, h3), &tally) == KES_DONE, "nothing is signed");
    need(verified(step) == KES_DONE, "a signature is not accepted");
    need(verified(beside) != KES_DONE, "a signature is accepted at another step");
}

static void make(void)
{
    uint8_t seed[KES_SEED_SIZE];
    size_t size = kes3_table_size(h1, h2, h3);
    uint64_t made, steps = kes3_steps(h1, h2, h3), days = steps * minutes / DAY;
    random_fill(seed, sizeof seed);
    made = kes3_make(h1, h2, h3, seed, sizeof seed, table, size, &tally);
    need(kes_number(made) == KES_DONE && kes_read_key(table, size, key, sizeof key) == KES_DONE, "no key is made");
    need(kes_release(table, size, 0, steps) == KES_DONE && kes_release(table, size, 1, steps) == KES_DONE, "the windows release nothing");
    printf("%" PRIu64 " steps of %" PRIu64 " minutes: %" PRIu64 " years and %" PRIu64 " days\n", steps, minutes, days / 365, days % 365);
    printf("made with %" PRIu32 " key pairs; a table of %zu bytes, signatures of %zu\n", kes_count(made), size, kes3_signature_size(h1, h2, h3));
}

/* Moves and signs, where the key lasts so long. */
static void live(const char *when, uint64_t step)
{
    uint64_t moved;
    if (step == 0 || step >= kes3_steps(h1, h2, h3))
        return;
    moved = kes_catch_up(table, kes3_table_size(h1, h2, h3), step, &tally);
    need(kes_number(moved) == KES_DONE, "the key does not move");
    sign(step);
    printf("%s, step %" PRIu64 ": %" PRIu32 " key pairs, signed and verified\n", when, step, kes_count(moved));
}

static int asked(int argc, char **argv)
{
    return argc == 5 && get_number(&h1, argv[1], "") && get_number(&h2, argv[2], "") && get_number(&h3, argv[3], "")
        && get_number(&minutes, argv[4], "") && KES3_HEIGHTS_FIT(h1, h2, h3) && minutes >= 1 && minutes <= DAY;
}

int main(int argc, char **argv)
{
    if (!asked(argc, argv))
        end(2, "usage: village_day H1 H2 H3 MINUTES, heights 0 to 8, minutes 1 to 1440");
    make();
    sign(0);
    puts("the first step: signed and verified");
    live("the next", 1);
    live("a year later", 365 * (uint64_t)DAY / minutes);
    live("the last", kes3_steps(h1, h2, h3) - 1);
    return fflush(stdout) != 0;
}
