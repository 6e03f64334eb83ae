#include <string.h>

#include "whole_tree.h"
#include "whole_works.h"

struct tree {
    uint64_t h;
    uint8_t table[KES_PLAIN_TABLE_MAX];
};

/* A record, about as long as a journal's. */
static const uint8_t message[27] = "111122223333444412345250000";

static struct tree low = {.h = 3}, high = {.h = KES_PLAIN_HEIGHT_MAX};
static uint8_t seed[KES_SEED_SIZE], table[KES_PLAIN_TABLE_MAX], signature[KES_PLAIN_SIGNATURE_SIZE(KES_PLAIN_HEIGHT_MAX)];
static uint64_t tally;

static void lay_out(const void *of)
{
    (void)of;
    memset(seed, 7, sizeof seed);
}

static const struct whole *whole_of(enum racer racer) { return racer == PLAIN ? &plain_whole : &library_whole; }

static uint64_t fill(enum racer racer, const void *of)
{
    const struct tree *t = of;
    return whole_of(racer)->fill(t->h, seed, sizeof seed, table, kes_plain_table_size(t->h), &tally);
}

static uint64_t sign(enum racer racer, const void *of)
{
    const struct tree *t = of;
    return whole_of(racer)->sign(t->h, t->table, kes_plain_table_size(t->h), 5, message, sizeof message, signature, kes_plain_signature_size(t->h), &tally);
}

void whole_works(struct work works[WHOLE_WORKS])
{
    lay_out(&high);
    must(fill(LIBRARY, &high) == KES_DONE, "no plain table is filled");
    memcpy(high.table, table, sizeof table);
    works[0] = (struct work){"plain fill (3)", lay_out, fill, &low, 1, 0, "1.10"};
    works[1] = (struct work){"plain fill (8)", lay_out, fill, &high, 1, 1, "1.10"};
    works[2] = (struct work){"plain sign (8)", lay_out, sign, &high, 10, 0, "1.05"};
}
