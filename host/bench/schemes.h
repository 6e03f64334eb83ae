/* The proved library and its plain peer, call by call, and the heights at which they are raced. */
#ifndef SCHEMES_H
#define SCHEMES_H

#include "kes.h"
#include "plain_kes.h"

struct scheme {
    uint64_t (*make)(uint64_t h1, uint64_t h2, uint8_t *seed, size_t seed_len, uint8_t *table, size_t table_len, uint64_t *tally);
    uint64_t (*make3)(uint64_t h1, uint64_t h2, uint64_t h3, uint8_t *seed, size_t seed_len, uint8_t *table, size_t table_len, uint64_t *tally);
    uint32_t (*read_key)(const uint8_t *table, size_t table_len, uint8_t *key, size_t key_len);
    uint64_t (*move)(uint8_t *table, size_t table_len, uint64_t step, uint64_t *tally);
    uint32_t (*release)(uint8_t *table, size_t table_len, uint64_t window, uint64_t step);
    uint32_t (*sign)(const uint8_t *table, size_t table_len, const uint8_t *message, size_t message_len, uint8_t *signature, size_t signature_len, uint64_t *tally);
    uint32_t (*verify)(uint64_t h1, uint64_t h2, const uint8_t *key, size_t key_len, uint64_t step, const uint8_t *message, size_t message_len, const uint8_t *signature, size_t signature_len);
    uint32_t (*verify3)(uint64_t h1, uint64_t h2, uint64_t h3, const uint8_t *key, size_t key_len, uint64_t step, const uint8_t *message, size_t message_len, const uint8_t *signature, size_t signature_len);
};

static const struct scheme library = {kes_make, kes3_make, kes_read_key, kes_move, kes_release, kes_sign, kes_verify, kes3_verify};
static const struct scheme plain = {plain_make, plain3_make, plain_read_key, plain_move, plain_release, plain_sign, plain_verify, plain3_verify};

/* The heights of a key of two trees, h3 then 0, or of three. */
struct heights {
    uint64_t trees, h1, h2, h3;
};

enum { HEIGHTS = 4 };
static const struct heights heights[HEIGHTS] = {{2, 6, 6, 0}, {2, 8, 4, 0}, {2, 12, 12, 0}, {3, 6, 6, 6}};

static inline size_t table_size(struct heights of) { return of.trees == 2 ? kes_table_size(of.h1, of.h2) : kes3_table_size(of.h1, of.h2, of.h3); }
static inline size_t signature_size(struct heights of) { return of.trees == 2 ? kes_signature_size(of.h1, of.h2) : kes3_signature_size(of.h1, of.h2, of.h3); }
static inline uint64_t steps(struct heights of) { return of.trees == 2 ? kes_steps(of.h1, of.h2) : kes3_steps(of.h1, of.h2, of.h3); }

static inline uint64_t make_by(const struct scheme *s, struct heights of, uint8_t *seed, size_t seed_len, uint8_t *table, size_t table_len, uint64_t *tally)
{
    return of.trees == 2 ? s->make(of.h1, of.h2, seed, seed_len, table, table_len, tally) : s->make3(of.h1, of.h2, of.h3, seed, seed_len, table, table_len, tally);
}

static inline uint32_t verify_by(const struct scheme *s, struct heights of, const uint8_t *key, size_t key_len, uint64_t step, const uint8_t *message, size_t message_len, const uint8_t *signature, size_t signature_len)
{
    return of.trees == 2 ? s->verify(of.h1, of.h2, key, key_len, step, message, message_len, signature, signature_len)
                         : s->verify3(of.h1, of.h2, of.h3, key, key_len, step, message, message_len, signature, signature_len);
}

#endif
